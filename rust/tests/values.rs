//! Values from types and back, and rows as tuples and structs. No server is needed.

use bolt::{dict, Error, ErrorKind, FromRow, Mismatch, Query, Row, Value};
use std::collections::{BTreeMap, HashMap};
use std::error::Error as _;

#[test]
fn each_type_becomes_a_value_and_comes_back() {
    macro_rules! check {
        ($($type:ty: $it:expr, $value:expr;)*) => {$(
            let value = Value::from($it);
            assert_eq!(value, $value, stringify!($type));
            assert_eq!(<$type>::try_from(&value).unwrap(), $it, stringify!($type));
            assert_eq!(value.to::<$type>().unwrap(), $it, stringify!($type));
            assert_eq!(Value::from(Some($it)).to::<Option<$type>>().unwrap(), Some($it), stringify!($type));
        )*};
    }
    let text = |it: &str| Value::Text(it.to_owned());
    check! {
        i8: -128_i8, Value::Int(-128);
        i16: i16::MAX, Value::Int(32_767);
        i32: i32::MIN, Value::Int(-2_147_483_648);
        i64: i64::MAX, Value::Int(i64::MAX);
        u16: u16::MAX, Value::Int(65_535);
        u32: u32::MAX, Value::Int(4_294_967_295);
        bool: true, Value::Bool(true);
        f64: 2.5, Value::Float(2.5);
        &str: "ü", text("ü");
        String: "ü".to_owned(), text("ü");
        &[u8]: [0, 255].as_slice(), Value::Bytes(vec![0, 255]);
        Vec<u8>: vec![0_u8, 255], Value::Bytes(vec![0, 255]);
        Vec<i64>: vec![1_i64, 2], Value::List(vec![Value::Int(1), Value::Int(2)]);
        Vec<Vec<String>>: vec![vec!["a".to_owned()], vec![]],
            Value::List(vec![vec![text("a")].into(), Value::List(vec![])]);
        HashMap<String, i64>: HashMap::from([("a".to_owned(), 1_i64)]), dict([("a", Value::Int(1))]);
        BTreeMap<String, bool>: BTreeMap::from([("a".to_owned(), true), ("b".to_owned(), false)]),
            dict([("a", true.into()), ("b", false.into())]);
    }
    assert_eq!(Value::from(None::<i64>), Value::Null);
    assert_eq!(Value::Null.to::<Option<i64>>().unwrap(), None);
    assert_eq!(Value::List(vec![1.into(), Value::Null]).to::<Vec<Option<i64>>>().unwrap(), [Some(1), None]);
    assert_eq!(Value::from([1, 2]), Value::from(vec![1, 2]));
    assert_eq!((1..3).collect::<Value>(), Value::from(vec![1, 2]));
    assert_eq!(Value::from(b"ab"), Value::Bytes(b"ab".to_vec()));
    assert_eq!((Value::Int(7).to::<u64>().unwrap(), Value::Int(7).to::<usize>().unwrap()), (7, 7));
    assert_eq!((Value::Int(7).to::<&Value>().unwrap(), Value::Int(7).to::<Value>().unwrap()), (&7.into(), 7.into()));
}

#[test]
fn other_types_and_ranges_are_refused_with_both_types() {
    let said = |it: Result<(), Mismatch>| it.unwrap_err().to_string();
    assert_eq!(said(Value::from("a").to::<i64>().map(drop)), "wanted i64, found a text");
    assert_eq!(said(Value::Int(-1).to::<u32>().map(drop)), "wanted u32, found the integer -1");
    assert_eq!(said(Value::Int(1).to::<f64>().map(drop)), "wanted f64, found the integer 1");
    assert_eq!(said(Value::Null.to::<bool>().map(drop)), "wanted bool, found null");
    assert_eq!(said(Value::from(vec![1, 2]).to::<Vec<bool>>().map(drop)), "wanted bool, found the integer 1");
    assert_eq!(said(Value::Float(0.5).to::<Option<i32>>().map(drop)), "wanted i32, found the float 0.5");
    assert_eq!(
        said(Value::Structure(0x44, vec![]).to::<&[u8]>().map(drop)),
        "wanted &[u8], found a structure of tag 44"
    );
    let all = [Value::Null, true.into(), 1.into(), 0.5.into(), "a".into(), b"a".into(), vec![1].into(), dict([])];
    for (at, value) in all.iter().enumerate() {
        let kinds = [
            *value == Value::Null,
            value.as_bool().is_some(),
            value.as_int().is_some(),
            value.as_float().is_some(),
            value.as_text().is_some(),
            value.as_bytes().is_some(),
            value.as_list().is_some(),
            value.as_dict().is_some(),
        ];
        assert_eq!(kinds.map(usize::from).iter().sum::<usize>(), 1, "{value:?}");
        assert!(kinds[at], "{value:?}");
    }
}

#[test]
fn query_takes_parameters_that_are_made_at_run_time() {
    let names = ["a".to_owned(), "b".to_owned()];
    let query = Query::new("Q", names.iter().zip(1..).map(|(name, it)| (name.as_str(), it.into())));
    assert_eq!(query, Query::from("Q").param("a", 1).param("b", 2));
    assert_eq!(query, Query::new("Q", vec![("a", 1.into()), ("b", 2.into())]));
    assert_eq!(query.param("a", "new").params, dict([("b", 2.into()), ("a", "new".into())]));
    let mut other = Query::from("Q");
    other.params = Value::from(BTreeMap::from([("a".to_owned(), 1)]));
    assert_eq!(other, Query::from("Q").param("a", 1));
}

#[derive(Debug, PartialEq)]
struct Account {
    owner: String,
    balance: Option<i64>,
}

impl FromRow for Account {
    fn from_row(row: &Row) -> Result<Account, Mismatch> {
        Ok(Account { owner: row.get("owner")?, balance: row.get("balance")? })
    }
}

#[test]
fn row_is_read_by_name_by_index_and_as_a_whole() {
    let row = Row::new(["owner", "balance"], ["Ada".into(), 12.into()]);
    assert_eq!((row.get::<&str>("owner").unwrap(), row.get::<i64>(1).unwrap()), ("Ada", 12));
    assert_eq!(row.to::<Account>().unwrap(), Account { owner: "Ada".to_owned(), balance: Some(12) });
    assert_eq!(row.to::<(String, u32)>().unwrap(), ("Ada".to_owned(), 12));
    assert_eq!(format!("{row:?}"), r#"{"owner": Text("Ada"), "balance": Int(12)}"#);
    assert_eq!((row.columns().len(), row.values()), (2, ["Ada".into(), Value::Int(12)].as_slice()));
    let unnamed = Row::new([], [1.into(), 2.into()]);
    assert_eq!((unnamed.to::<(i64, i64)>().unwrap(), unnamed.get::<i64>(1).unwrap()), ((1, 2), 2));
    assert_eq!(
        (format!("{unnamed:?}"), unnamed.into_values()),
        ("[Int(1), Int(2)]".to_owned(), vec![1.into(), 2.into()])
    );
}

#[test]
fn error_of_a_row_says_which_column_and_which_type() {
    let row = Row::new(["owner", "balance"], ["Ada".into(), 12.into()]);
    let said = |it: Result<(), Mismatch>| it.unwrap_err().to_string();
    assert_eq!(said(row.get::<bool>("balance").map(drop)), "column balance: wanted bool, found the integer 12");
    assert_eq!(said(row.get::<bool>(0).map(drop)), "column 0: wanted bool, found a text");
    assert_eq!(said(row.get::<bool>("age").map(drop)), "there is no column age; the columns are: owner, balance");
    assert_eq!(said(row.get::<bool>(2).map(drop)), "there is no column 2; the columns are: owner, balance");
    assert_eq!(
        said(row.to::<(String, String)>().map(drop)),
        "column balance: wanted alloc::string::String, found the integer 12"
    );
    assert_eq!(said(row.to::<(String,)>().map(drop)), "wanted 1 columns, found 2");
    let error = Error::from(row.get::<bool>("age").unwrap_err());
    assert_eq!((error.kind(), error.source().unwrap().to_string()), (ErrorKind::Mismatch, error.to_string()));
}
