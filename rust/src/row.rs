//! Rows with the names of their columns, and what is read from them.

use crate::convert::FromValue;
use crate::error::Mismatch;
use crate::value::Value;
use std::fmt;
use std::sync::Arc;

/// A row: a value for each column, and the names of the columns.
#[derive(Clone, PartialEq)]
pub struct Row {
    columns: Arc<[String]>,
    values: Vec<Value>,
}

/// A column of a row: its name, or its index from 0.
pub trait Column: fmt::Display {
    /// Returns the column's index, None if the row has no such column. Of several columns with a name it is the first.
    fn index(&self, row: &Row) -> Option<usize>;
}

impl Column for usize {
    fn index(&self, row: &Row) -> Option<usize> {
        (*self < row.values.len()).then_some(*self)
    }
}

impl Column for &str {
    fn index(&self, row: &Row) -> Option<usize> {
        row.columns.iter().position(|it| it == self).filter(|it| *it < row.values.len())
    }
}

/// A type that is made from a row: a tuple of up to eight values, or a type of the program.
///
/// ```
/// use bolt::{FromRow, Mismatch, Row};
///
/// struct Account {
///     owner: String,
///     balance: i64,
/// }
///
/// impl FromRow for Account {
///     fn from_row(row: &Row) -> Result<Account, Mismatch> {
///         Ok(Account { owner: row.get("owner")?, balance: row.get("balance")? })
///     }
/// }
///
/// let row = Row::new(["owner", "balance"], ["Ada".into(), 12.into()]);
/// let account: Account = row.to().unwrap();
/// assert_eq!(("Ada", 12), (account.owner.as_str(), account.balance));
/// let (owner, balance): (String, i64) = row.to().unwrap();
/// assert_eq!(("Ada", 12), (owner.as_str(), balance));
/// ```
pub trait FromRow: Sized {
    /// Reads the row.
    ///
    /// # Errors
    ///
    /// A [`Mismatch`] if the row has other columns, or values of other types.
    fn from_row(row: &Row) -> Result<Self, Mismatch>;
}

impl Row {
    /// Makes a row, as a test of a [`FromRow`] needs it.
    pub fn new<'a>(columns: impl IntoIterator<Item = &'a str>, values: impl IntoIterator<Item = Value>) -> Row {
        Row::of(columns.into_iter().map(str::to_owned).collect(), values.into_iter().collect())
    }

    pub(crate) fn of(columns: Arc<[String]>, values: Vec<Value>) -> Row {
        Row { columns, values }
    }

    /// Returns the names of the columns. There are none if the server gave a column a name that is no text.
    pub fn columns(&self) -> &[String] {
        &self.columns
    }

    /// Returns the values, one for each column.
    pub fn values(&self) -> &[Value] {
        &self.values
    }

    /// Returns the values without the names.
    pub fn into_values(self) -> Vec<Value> {
        self.values
    }

    /// Reads the value of a column as a type. The column is a name, or an index from 0.
    ///
    /// # Errors
    ///
    /// - [`Mismatch::NoColumn`] if the row has no such column.
    /// - [`Mismatch::Type`], with the column, if its value isn't of the type.
    pub fn get<'a, T: FromValue<'a>>(&'a self, column: impl Column) -> Result<T, Mismatch> {
        match column.index(self).and_then(|it| self.values.get(it)) {
            Some(value) => value.to().map_err(|it: Mismatch| it.of_column(&column)),
            None => Err(Mismatch::NoColumn { column: column.to_string(), columns: self.columns.to_vec() }),
        }
    }

    /// Reads the row as a type: a tuple with a part for each column, or a type that implements [`FromRow`].
    ///
    /// # Errors
    ///
    /// Those of the type. Of a tuple they are [`Mismatch::Count`] if it has more or fewer parts than the row has
    /// values, and [`Mismatch::Type`].
    pub fn to<T: FromRow>(&self) -> Result<T, Mismatch> {
        T::from_row(self)
    }

    /// Reads a part of a tuple. The error names the column if the column has a name.
    fn part<T: for<'a> FromValue<'a>>(&self, at: usize) -> Result<T, Mismatch> {
        match self.columns.get(at) {
            Some(name) => self.get(at).map_err(|it: Mismatch| it.of_column(name)),
            None => self.get(at),
        }
    }
}

/// Shows each value under its column's name, or the values alone if the columns have no names.
impl fmt::Debug for Row {
    fn fmt(&self, f: &mut fmt::Formatter<'_>) -> fmt::Result {
        if self.columns.len() == self.values.len() {
            f.debug_map().entries(self.columns.iter().zip(&self.values)).finish()
        } else {
            f.debug_list().entries(&self.values).finish()
        }
    }
}

impl<const N: usize> PartialEq<[Value; N]> for Row {
    fn eq(&self, values: &[Value; N]) -> bool {
        self.values == values
    }
}

macro_rules! tuples {
    ($($count:literal: $($part:ident $at:literal),+;)*) => {$(
        impl<$($part: for<'a> FromValue<'a>),+> FromRow for ($($part,)+) {
            fn from_row(row: &Row) -> Result<Self, Mismatch> {
                if row.values.len() != $count {
                    return Err(Mismatch::Count { wanted: $count, found: row.values.len() });
                }
                Ok(($(row.part::<$part>($at)?,)+))
            }
        }
    )*};
}

tuples! {
    1: A 0;
    2: A 0, B 1;
    3: A 0, B 1, C 2;
    4: A 0, B 1, C 2, D 3;
    5: A 0, B 1, C 2, D 3, E 4;
    6: A 0, B 1, C 2, D 3, E 4, F 5;
    7: A 0, B 1, C 2, D 3, E 4, F 5, G 6;
    8: A 0, B 1, C 2, D 3, E 4, F 5, G 6, H 7;
}
