//! Values as data of serde, by JSON.
#![cfg(feature = "serde")]
use serde_json::{from_str, json, to_string, to_value, Value};
use voting_board::*;

fn same<It: serde::Serialize + serde::de::DeserializeOwned + PartialEq + std::fmt::Debug>(it: It) -> Value {
    let text = to_string(&it).unwrap();
    assert_eq!(from_str::<It>(&text).unwrap(), it, "{text}");
    to_value(&it).unwrap()
}

#[test]
fn values_come_back() {
    assert_eq!(same(Majority::Seventy), json!("70"));
    assert_eq!(same(Code::new("AAA").unwrap()), json!("AAA"));
    assert_eq!(same(Fraction::new(2, 4).unwrap()), json!({"numerator": 1, "denominator": 2}));
    assert_eq!(same(Refusal::ChairOpen), json!("ChairOpen"));
    assert_eq!(same("move,AAA,none".parse::<Command>().unwrap()), json!("move,AAA,none"));
    let board = same(Board::named([("North", 50), ("South", 49)]).indices(Majority::Half).unwrap());
    assert_eq!((&board["majority"], &board["chairs"][0]["name"]), (&json!("half"), &json!("North")));
    assert_eq!(board["chairs"][1]["share"], json!({"numerator": 0, "denominator": 1}));
    let register = Register::new([("AAA", 7)]).unwrap();
    let member = json!([{"code": "AAA", "votes": 7, "chair": null, "suspended": false}]);
    assert_eq!(same(register.members()), member);
}

#[test]
fn outcomes_come_back() {
    let text = "member,votes\nAAA,50\nscript\nopen,1\nopen,1\npublish\nread,1,half\n";
    let outcomes: Vec<Outcome> = replay(text).unwrap().map(Result::unwrap).collect();
    let values = same(outcomes);
    assert_eq!(values[0], json!({"outcome": "accepted", "record": 4, "number": 1}));
    assert_eq!((&values[1]["outcome"], &values[1]["command"]), (&json!("refused"), &json!("open,1")));
    assert_eq!((&values[3]["outcome"], &values[3]["coalitions"]), (&json!("reading"), &json!(2)));
}

#[test]
fn rows_are_read_by_name() {
    let rows = r#"[{"code": "AAA", "votes": 50, "chair": 1, "chair_name": "North"}, {"votes": 7, "chair": null}]"#;
    let rows: Vec<MemberRow> = from_str(rows).unwrap();
    assert_eq!((rows[0].chair_name.as_deref(), rows[1].chair, rows[1].suspended), (Some("North"), None, false));
    same(rows);
    let bad = [
        r#"{"votes": 1, "Suspended": true}"#,
        r#"{"votes": 1, "chairs": 2}"#,
        r#"{"votes": 1.5}"#,
        r#"{"votes": -1}"#,
        r#"{"votes": "50"}"#,
        r#"{"votes": 1, "suspended": 1}"#,
        r#"{"code": "AAA"}"#,
    ];
    for text in bad {
        assert!(from_str::<MemberRow>(text).is_err(), "{text}");
    }
}

#[test]
fn values_that_cannot_be_are_refused() {
    for text in [r#"{"numerator": 1, "denominator": 0}"#, r#"{"numerator": 1}"#, "0.5"] {
        assert!(from_str::<Fraction>(text).is_err(), "{text}");
    }
    let why = from_str::<Majority>("\"HALF\"").unwrap_err().to_string();
    assert!(why.contains("no majority 'HALF': half, 70, 85 or quorum"), "{why}");
    assert!(from_str::<Code>("\"aaa\"").is_err());
    assert!(from_str::<Command>("\"open,33\"").is_err());
}
