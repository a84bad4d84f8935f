// The call, the files and the answers of the folder `examples`, as the examples and tests use them.

#[allow(dead_code)]
pub const ANCHORS: &[u8] = include_bytes!("../../../../examples/files/anchors.der");
#[allow(dead_code)]
pub const TABLE: &[u8] = include_bytes!("../../../../examples/files/table.txt");
#[allow(dead_code)]
pub const CHAIN: &[u8] = include_bytes!("../../../../examples/files/passport.der");
#[allow(dead_code)]
pub const UNSIGNED: &[u8] = include_bytes!("../../../../examples/sign/invite.sip");
#[allow(dead_code)]
pub const INVITE: &[u8] = include_bytes!("../../../../examples/sign/signed.sip");
#[allow(dead_code)]
pub const DIVERTER: &[u8] = include_bytes!("../../../../examples/sign/diverter.der");
#[allow(dead_code)]
pub const DIVERTER_X5U: &str = "https://cert.example.org/div.cer";
#[allow(dead_code)]
pub const GOES_ON: &[u8] = include_bytes!("../../../../examples/sign/diverted.sip");
#[allow(dead_code)]
pub const DIVERTED: &[u8] = include_bytes!("../../../../examples/sign/diverted-signed.sip");
#[allow(dead_code)]
pub const MOMENT: u64 = 1_443_208_345;
#[allow(dead_code)]
pub const X5U: &str = "https://cert.example.org/passport.cer";
#[allow(dead_code)]
pub const ORIGID: &str = "123e4567-e89b-12d3-a456-426655440000";

#[allow(dead_code)]
const ANSWERS: [&str; 2] = [
    include_str!("../../../../examples/files/answers.txt"),
    include_str!("../../../../examples/sign/signatures.txt"),
];

/// Whether the answers of the folder confirm a question, in the place of a verifier of signatures.
#[allow(dead_code)]
pub fn good(question: &stir::Question) -> bool {
    let hex = |bytes: &[u8]| bytes.iter().map(|byte| format!("{byte:02x}")).collect::<String>();
    let parts = [question.key(), question.digest(), question.signature()].map(hex);
    ANSWERS.iter().any(|text| text.contains(&format!("confirm {}", parts.join(" "))))
}

/// The signature that the folder has over a digest, in the place of a signer.
#[allow(dead_code)]
pub fn signature(digest: &[u8; 32]) -> Option<[u8; 64]> {
    let digest: String = digest.iter().map(|byte| format!("{byte:02x}")).collect();
    let line = ANSWERS[1].lines().find(|line| line.contains(&digest))?;
    let hex = line.split(' ').nth(3)?;
    let byte = |at: usize| u8::from_str_radix(hex.get(2 * at..2 * at + 2)?, 16).ok();
    (0..64).map(byte).collect::<Option<Vec<u8>>>()?.try_into().ok()
}
