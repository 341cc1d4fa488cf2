//! The one shape of every JSON answer; docs/HOST.md says what it holds.

use std::fmt::{self, Write as _};
use std::io;

use stipeflute::{Reason, Refusal, Refused};

use crate::dump::Dump;
use crate::log::Log;
use crate::out::Out;
use crate::request::Request;
use crate::stop::Stop;

pub enum Json {
    Null,
    Bool(bool),
    Number(i64),
    Text(String),
    List(Vec<Json>),
    Object(Vec<(&'static str, Json)>),
}

impl From<u32> for Json {
    fn from(number: u32) -> Json {
        Json::Number(number.into())
    }
}

impl From<bool> for Json {
    fn from(flag: bool) -> Json {
        Json::Bool(flag)
    }
}

impl<T: Into<Json>> From<Option<T>> for Json {
    fn from(value: Option<T>) -> Json {
        value.map_or(Json::Null, Into::into)
    }
}

impl From<&str> for Json {
    fn from(text: &str) -> Json {
        Json::Text(text.to_string())
    }
}

/// A refusal's number and name.
impl From<Refusal> for Json {
    fn from(refusal: Refusal) -> Json {
        Json::Object(named(refusal).into())
    }
}

fn named(refusal: Refusal) -> [(&'static str, Json); 2] {
    [("number", u32::from(refusal.number()).into()), ("name", format!("{refusal:?}").as_str().into())]
}

impl fmt::Display for Json {
    fn fmt(&self, out: &mut fmt::Formatter) -> fmt::Result {
        match self {
            Json::Null => out.write_str("null"),
            Json::Bool(flag) => write!(out, "{flag}"),
            Json::Number(number) => write!(out, "{number}"),
            Json::Text(text) => quoted(text, out),
            Json::List(items) => joined(items, ['[', ']'], out, |item, out| write!(out, "{item}")),
            Json::Object(fields) => joined(fields, ['{', '}'], out, |(name, value), out| write!(out, "\"{name}\":{value}")),
        }
    }
}

fn joined<T>(
    items: &[T],
    around: [char; 2],
    out: &mut fmt::Formatter,
    each: impl Fn(&T, &mut fmt::Formatter) -> fmt::Result,
) -> fmt::Result {
    out.write_char(around[0])?;
    for (at, item) in items.iter().enumerate() {
        if at > 0 {
            out.write_char(',')?;
        }
        each(item, out)?;
    }
    out.write_char(around[1])
}

fn quoted(text: &str, out: &mut fmt::Formatter) -> fmt::Result {
    out.write_char('"')?;
    for c in text.chars() {
        match c {
            '"' | '\\' => write!(out, "\\{c}")?,
            c if c < ' ' => write!(out, "\\u{:04x}", u32::from(c))?,
            c => out.write_char(c)?,
        }
    }
    out.write_char('"')
}

/// What stands before the table.
pub struct Head<'a> {
    pub request: &'a Request,
    pub dump: &'a Dump,
    pub log: &'a Log<'a>,
    pub torn: &'a [u32],
    /// Why there is no table, where there is none.
    pub refused: Option<&'a Stop>,
}

impl Head<'_> {
    fn fields(&self) -> Vec<(&'static str, Json)> {
        let (layout, scan) = (self.log.layout, self.log.scan);
        vec![
            ("command", self.request.command.name.into()),
            ("dump", self.dump.name.as_str().into()),
            ("capacity_bytes", layout.capacity_bytes.into()),
            ("log_page_count", layout.log_page_count.into()),
            (
                "scan",
                Json::Object(vec![
                    ("next_page", scan.next_page.into()),
                    ("next_flight", scan.next_flight.into()),
                    ("writable", scan.writable.into()),
                    ("foreign", self.log.foreign().into()),
                    ("reason", reason(self.log.reason)),
                ]),
            ),
            ("ledger", format!("{:?}", self.log.ledger).as_str().into()),
            ("torn_pages", Json::List(self.torn.iter().map(|&index| index.into()).collect())),
            ("refused", self.refused.map_or(Json::Null, why)),
        ]
    }
}

/// The reason's name, and the pages that it names, each with its decode refusal.
fn reason(reason: Reason) -> Json {
    let page = |index: u32, refused: Refusal| Json::Object(vec![("page", index.into()), ("refused", refused.into())]);
    let (name, pages) = match reason {
        Reason::FirstTorn(refused) => ("FirstTorn", vec![page(0, refused)]),
        Reason::LastTorn { earlier_page, earlier, later_page, later } => {
            ("LastTorn", vec![page(earlier_page, earlier), page(later_page, later)])
        }
        Reason::Full => ("Full", Vec::new()),
        Reason::Nothing => ("Nothing", Vec::new()),
    };
    Json::Object(vec![("name", name.into()), ("pages", Json::List(pages))])
}

fn why(stop: &Stop) -> Json {
    match stop {
        Stop::Refused { refused, why } => refusal(*refused, why),
        _ => Json::Null,
    }
}

fn refusal(refused: Refused, why: &str) -> Json {
    Json::Object(named(refused.refusal).into_iter().chain([("why", why.into())]).collect())
}

/// A table whose rows are written as they come.
pub struct Table<'a> {
    out: &'a mut Out,
    rows: usize,
}

impl<'a> Table<'a> {
    pub fn begin(head: &Head, out: &'a mut Out) -> io::Result<Table<'a>> {
        begin(&head.fields(), out)?;
        Ok(Table { out, rows: 0 })
    }

    pub fn row(&mut self, fields: Vec<(&'static str, Json)>) -> io::Result<()> {
        let comma = if self.rows == 0 { "" } else { "," };
        self.rows += 1;
        self.out.text(&format!("{comma}\n{}", Json::Object(fields)))
    }

    pub fn end(self) -> io::Result<()> {
        self.out.text("\n]}\n")
    }
}

fn begin(fields: &[(&'static str, Json)], out: &mut Out) -> io::Result<()> {
    let mut text = String::from("{");
    for (name, value) in fields {
        // A String takes every write.
        let _ = writeln!(text, "\"{name}\":{value},");
    }
    out.text(&(text + "\"table\":["))
}

/// A request that is refused although the log could be read: the head alone where JSON was asked for. Hands the refusal on.
pub fn stopped(request: &Request, dump: &Dump, log: &Log, stop: Stop, out: &mut Out) -> Result<(), Stop> {
    if request.json {
        Table::begin(&Head { request, dump, log, torn: &[], refused: Some(&stop) }, out)?.end()?;
    }
    Err(stop)
}

/// The same shape for a dump that was refused whole.
pub fn refused(request: &Request, refused: Refused, why: &str, out: &mut Out) -> io::Result<()> {
    let none = ["capacity_bytes", "log_page_count", "scan", "ledger"].map(|name| (name, Json::Null));
    let mut fields = vec![("command", request.command.name.into()), ("dump", request.source(0).name().as_str().into())];
    fields.extend(none);
    fields.extend([("torn_pages", Json::List(Vec::new())), ("refused", refusal(refused, why))]);
    begin(&fields, out)?;
    out.text("\n]}\n")
}
