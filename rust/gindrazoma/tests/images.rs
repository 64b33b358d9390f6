//! Tables from images and from rules.
use gindrazoma::{Refusal, Rule, Table};

fn rules_of_t() -> Vec<Rule> {
    vec![Rule::new(0, 97, &[]), Rule::new(1, 97, &[0]), Rule::new(2, 97, &[1]), Rule::new(3, 98, &[0])]
}

#[test]
fn a_table_survives_writing_and_reading() {
    let table = Table::from_rules(4, &rules_of_t()).unwrap();
    assert_eq!(table.jobs(), 4);
    assert_eq!(table.rules(), rules_of_t());
    assert_eq!(table.image().len(), 512);
    assert_eq!(table.image()[510..], [152, 1]);
    assert_eq!(Table::from_image(table.image()), Ok(table));
}

#[test]
fn moves_have_two_bytes() {
    let moves = [0, 97, 255, 256, 353, 65535];
    let table = Table::from_rules(1, &moves.map(|action| Rule::new(0, action, &[]))).unwrap();
    let bytes: Vec<_> = table.image()[2..50].chunks(8).map(|place| (place[1], place[7])).collect();
    assert_eq!(bytes, [(0, 0), (97, 0), (255, 0), (0, 1), (97, 1), (255, 255)]);
    let read = Table::from_image(table.image()).unwrap();
    assert_eq!(read.rules().iter().map(|rule| rule.action).collect::<Vec<_>>(), moves);
}

#[test]
fn refusals_come_as_errors() {
    let t = Table::from_rules(4, &rules_of_t()).unwrap();
    assert_eq!(Table::from_image(&[]), Err(Refusal::BadLength));
    assert_eq!(Table::from_rules(4, &[]), Err(Refusal::BadLength));
    assert_eq!(Table::from_rules(0, &rules_of_t()), Err(Refusal::BadHeader));
    assert_eq!(Table::from_rules(3, &rules_of_t()), Err(Refusal::BadPlace));
    assert_eq!(Table::from_rules(1, &[Rule::new(0, 97, &[0, 0, 0, 0, 0])]), Err(Refusal::BadPlace));
    assert_eq!(Table::from_rules(1, &[Rule::new(0, 97, &[0; 300])]), Err(Refusal::BadPlace));
    assert_eq!(Table::from_rules(5, &rules_of_t()), Err(Refusal::NoNorm));
    let mut image = t.image().to_vec();
    image[3] ^= 1;
    assert_eq!(Table::from_image(&image), Err(Refusal::BadChecksum));
    let doubling: Vec<Rule> =
        (0..10).map(|k: u8| Rule::new(k, 97, if k == 0 { vec![] } else { vec![k - 1; 2] }.as_slice())).collect();
    assert_eq!(Table::from_rules(10, &doubling), Err(Refusal::JobNormHigh));
    assert!(Table::from_rules(9, &doubling[..9]).is_ok());
    assert_eq!(Refusal::BadChecksum.to_string(), "refused 3: the checksum of a block is wrong");
}
