//! OpenSSL without memory: nothing is taken for bad that isn't known, and nothing of it remembered.
use std::env;
use std::path::Path;
use std::process::Command;
use stir::Question;
use stir_trust::Verifier;

/// Says how many requests OpenSSL is given memory for (scarce.c); without it, for all.
const REQUESTS: &str = "OPENSSL_REQUESTS";

/// Is there in the process that has scarce.c.
const IS_SCARCE: &str = "OPENSSL_IS_SCARCE";

/// RFC 6979, section A.2.5, "sample" with SHA-256.
const SAMPLE: &str = "0460FED4BA255A9D31C961EB74C6356D68C049B8923B61FA6CE669622E60F29FB6\
    7903FE1008B8BC99A41AE9E95628BC64F2F1B20C2D7E9F5177A3C294D4462299\
    AF2BDBE1AA9B6EC1E2ADE1D694F41FC71A831D0268E9891562113D8A62ADD1BF\
    EFD48B2AACB6A8FD1140DD9CD45E81D69D2C877B56AAF991C34D0EA84EAF3716\
    F7CB1C942D657C41D436C7A1B6E29F65F3E900DBB9AFF4064DC4AB2F843ACDA8";

/// Does something with memory for so many requests.
fn with<T>(requests: usize, what: impl FnOnce() -> T) -> T {
    env::set_var(REQUESTS, requests.to_string());
    let came = what();
    env::remove_var(REQUESTS);
    came
}

#[test]
fn a_good_signature_is_never_taken_for_bad_and_a_bad_one_never_for_good() {
    if env::var_os(IS_SCARCE).is_none() {
        return with_scarce_memory();
    }
    let byte = |at: usize| u8::from_str_radix(&SAMPLE[2 * at..][..2], 16).expect("hex digits");
    let good = Question::new(std::array::from_fn(byte));
    let mut bytes = *good.bytes();
    bytes[160] ^= 1;
    let bad = Question::new(bytes);
    let (mut failed, mut answered) = (0, 0);
    for requests in 0..200 {
        for (question, is_good) in [(&good, true), (&bad, false)] {
            let verifier = Verifier::new().expect("there is memory");
            match with(requests, || verifier.answer(question)) {
                Ok(answer) => {
                    assert_eq!(answer, is_good, "with memory for {requests} requests");
                    answered += 1;
                }
                Err(_) => failed += 1,
            }
            assert_eq!(verifier.answer(question), Ok(is_good), "asked again, {requests}");
        }
    }
    assert!(failed > 20 && answered > 20, "{failed} failed and {answered} didn't");
}

/// Runs this test in a process whose OpenSSL asks scarce.c for memory.
fn with_scarce_memory() {
    let folder = env::temp_dir().join(format!("stir-trust-scarce-{}", std::process::id()));
    std::fs::create_dir_all(&folder).expect("a folder");
    let library = folder.join("scarce.so");
    let source = Path::new(env!("CARGO_MANIFEST_DIR")).join("tests/scarce.c");
    let made = Command::new("cc")
        .args(["-shared", "-fPIC", "-Wall", "-Werror", "-o"])
        .args([&library, &source])
        .arg("-lcrypto")
        .status();
    assert!(made.expect("cc").success(), "scarce.c isn't compiled");
    let ran = Command::new(env::current_exe().expect("this program"))
        .arg("--nocapture")
        .env("LD_PRELOAD", &library)
        .env(IS_SCARCE, "yes")
        .status();
    std::fs::remove_dir_all(&folder).expect("it is removed");
    assert!(ran.expect("the test").success(), "with scarce memory");
}
