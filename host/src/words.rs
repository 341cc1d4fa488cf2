//! Numbers and refusals in words.

use stipeflute::Refusal;

/// A number with a comma for each three digits.
pub fn grouped(number: u64) -> String {
    let digits = number.to_string();
    let mut text = String::new();
    for (at, digit) in digits.chars().enumerate() {
        if at > 0 && (digits.len() - at).is_multiple_of(3) {
            text.push(',');
        }
        text.push(digit);
    }
    text
}

/// `1 page`, `2 pages`.
pub fn counted(number: usize, thing: &str) -> String {
    let plural = if number == 1 { "" } else { "s" };
    format!("{} {thing}{plural}", grouped(number as u64))
}

/// `4`, or `4 to 7`.
pub fn span(first: u32, last: u32) -> String {
    if first == last { first.to_string() } else { format!("{first} to {last}") }
}

/// Rising numbers as spans: `2, 4 to 7, 9`.
pub fn spans(numbers: &[u32]) -> Vec<String> {
    let mut spans = Vec::new();
    let mut rest = numbers;
    while let Some(&first) = rest.first() {
        let len = rest.iter().zip(0..).take_while(|&(number, ahead)| number.checked_sub(first) == Some(ahead)).count();
        spans.push(span(first, rest[len - 1]));
        rest = &rest[len..];
    }
    spans
}

/// The refusal's number and name.
pub fn refusal(refusal: Refusal) -> String {
    format!("{} {refusal:?}", refusal.number())
}

/// When the scope document gives the number.
pub fn sentence(refusal: Refusal) -> &'static str {
    match refusal {
        Refusal::InvalidRecordCount => "more than 5 records, or a record index not below the page's count",
        Refusal::InvalidMagic => "bytes 240, 241 are not \"FB\"",
        Refusal::UnsupportedVersion => "byte 242 is not 1",
        Refusal::CrcMismatch => "the stored checksum differs",
        Refusal::InvalidLayout => "the length is no capacity",
        Refusal::Device => "a read has a fault, or a program or an erase fails",
        Refusal::Corrupt => "a page that the search reads has no flight, or lies past the log",
        Refusal::OutOfRange => "flight 0 and flights above 32,704 have no bit in the ledger",
        Refusal::NotRecording => "a push while no flight is recorded",
        Refusal::PageNotConsumed => "a push while a finished page waits",
        Refusal::Format => "encoding fails inside the assembler",
        Refusal::NoSuchFlight => "no such flight",
        Refusal::Recording => "the flight is unfinished",
        Refusal::LengthChanged => "the page count differs from the flight found",
        Refusal::LedgerFull => "an acknowledgement above 32,704",
        Refusal::QueueFull => "the queue holds 31 records",
        Refusal::BadLength => "a slice of another length",
    }
}

#[cfg(test)]
mod tests {
    use super::*;

    #[test]
    fn numbers_are_grouped_by_three() {
        let texts = [0, 999, 1_000, 65_472, 16_777_216].map(grouped);
        assert_eq!(texts, ["0", "999", "1,000", "65,472", "16,777,216"]);
    }

    #[test]
    fn neighbours_are_one_span() {
        assert_eq!(spans(&[]), Vec::<String>::new());
        assert_eq!(spans(&[2, 4, 5, 6, 7, 9]), ["2", "4 to 7", "9"]);
        assert_eq!(spans(&[u32::MAX - 1, u32::MAX]), ["4294967294 to 4294967295"]);
    }
}
