//! The place at which a rule is broken, in words (docs/RULES.md).
use stir::Refused;

/// What rule 6 finds broken of a PASSporT, by the part of its place.
const OF_TOKEN: [(u32, &str); 15] = [
    (1, "its token hasn't two dots, or lacks one of header and payload"),
    (2, "a part of its token isn't base64url"),
    (3, "the header or the payload of its token is no JSON object"),
    (4, "the signature of its token hasn't 64 bytes"),
    (5, "its token is short, and the message has not what it is made of"),
    (11, "the header's typ isn't passport"),
    (12, "the header's alg isn't ES256"),
    (13, "the header's ppt isn't the field's"),
    (14, "the header's x5u isn't the field's info"),
    (15, "iat is no second"),
    (16, "orig has no number"),
    (17, "dest hasn't the numbers that it has to have"),
    (18, "attest isn't A, B or C"),
    (19, "origid is no UUID"),
    (20, "div has no number"),
];

/// What rule 8 finds broken of the order of diversions, by the part of its place.
const OF_ORDER: [(u32, &str); 5] = [
    (1, "there are more than 8 diversions"),
    (2, "a diversion comes back to a number"),
    (3, "it isn't clear which diversion is the first"),
    (4, "a diversion doesn't go on from another"),
    (5, "the last one doesn't lead to the called number"),
];

/// The place of a refusal in words, and which of its parts is a byte of the field's value.
pub(super) fn words(refused: &Refused) -> String {
    let Refused { rule, field, part, .. } = *refused;
    let of = |table: &[(u32, &str)]| {
        let found = table.iter().find(|(number, _)| *number == part).map(|(_, words)| *words);
        found.map_or_else(
            || format!("Identity field {field}"),
            |it| format!("Identity field {field}: {it}"),
        )
    };
    match (rule, field, part) {
        (1, _, 0) => "the message begins so, or its method is another one".into(),
        (1, ..) => format!("byte {part} of the message"),
        (3, 17, _) => "there are more than 16 Identity fields".into(),
        (3, ..) => format!("Identity field {field}, byte {part} of its value"),
        (6, ..) => of(&OF_TOKEN),
        (8, ..) => of(&OF_ORDER),
        (11, _, 0) => format!("Identity field {field}: the file of its chain is too long"),
        (11..=15 | 19, ..) if part > 0 => {
            format!("Identity field {field}: certificate {part} of its chain, of which 1 signed")
        }
        (_, 0, _) => "the message as a whole".into(),
        _ => format!("Identity field {field}"),
    }
}

#[cfg(test)]
mod tests {
    use super::*;

    /// The first cells of the rows of the table that begins so in the page of the rules.
    fn rows(head: &str) -> Vec<u32> {
        let page = include_str!("../../../../docs/RULES.md");
        let rows = page.split_once(head).expect(head).1.lines().skip(2);
        let rows = rows.take_while(|line| line.starts_with("| "));
        rows.filter_map(|row| row.split('|').nth(1)?.trim().parse().ok()).collect()
    }

    #[test]
    fn each_part_that_the_rules_name_has_its_words() {
        let numbers =
            |table: &[(u32, &str)]| -> Vec<u32> { table.iter().map(|row| row.0).collect() };
        assert_eq!(numbers(&OF_TOKEN), rows("| F | Broken | Standard |"));
        assert_eq!(numbers(&OF_ORDER), rows("| Kind | Comes if | Link |"));
    }

    #[test]
    fn a_place_is_told_in_words() {
        for (rule, field, part, wanted) in [
            (1, 0, 0, "the message begins so, or its method is another one"),
            (1, 0, 65_535, "byte 65535 of the message"),
            (2, 0, 0, "the message as a whole"),
            (3, 17, 0, "there are more than 16 Identity fields"),
            (3, 2, 9, "Identity field 2, byte 9 of its value"),
            (6, 1, 18, "Identity field 1: attest isn't A, B or C"),
            (6, 1, 99, "Identity field 1"),
            (8, 3, 2, "Identity field 3: a diversion comes back to a number"),
            (9, 1, 0, "Identity field 1"),
            (11, 1, 0, "Identity field 1: the file of its chain is too long"),
            (15, 1, 2, "Identity field 1: certificate 2 of its chain, of which 1 signed"),
            (16, 1, 0, "Identity field 1"),
        ] {
            let refused = Refused { rule, code: 400, field, part };
            assert_eq!(words(&refused), wanted, "{refused:?}");
        }
    }
}
