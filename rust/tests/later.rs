//! What a later library may say that this crate has no name for. `rust/test.sh` runs it over one, by `later.c`.
use wkt_proved::{canonical, explain, infer_type, message, Error, Expected, Hint, InferError};

#[test]
#[ignore = "it needs the library of later.c"]
fn a_later_library() {
    let error = canonical("!", 6).unwrap_err();
    let why = *error.refusal().unwrap();
    assert_eq!(why.expected, Expected::Other(11));
    assert_eq!(why.hint, Some(Hint::Other(99)));
    assert_eq!((why.status, why.message), (15, "A later message"));
    assert_eq!(explain("!", 6), Ok(Some(why)));
    let shown = "1:1: something else (11) was expected (hint 99)";
    assert_eq!(error.to_string(), shown);

    for (text, status, shown) in [("?", 34, "A later status"), ("~", 35, "Status 35")] {
        let error = canonical(text, 6).unwrap_err();
        assert_eq!(error, Error::Other(status));
        assert_eq!(error.to_string(), shown);
    }
    assert_eq!(infer_type("?"), Err(InferError::Call(Error::Other(34))));
    let error = infer_type("!").unwrap_err();
    assert!(matches!(error, InferError::Call(Error::NoForm(_))));
    assert_eq!((message(34), message(35)), ("A later status", ""));
    assert_eq!(canonical("POINT(1 2)", 6).as_deref(), Ok("POINT(1 2)"));
}
