//! The text that the program `page` prints for an input, written from request T-07.

use crate::blocks::{recovered, RECORD_LENGTH};
use crate::code::MISSING;
use crate::curve::{Curve, Point};
use crate::outcome::Outcome;

/// 17 lines for each record of 64 bytes, and nothing for a shorter last part.
pub fn page(input: &[u8]) -> String {
    let points = Curve::Q_IS_4.points();
    let records = input.chunks_exact(RECORD_LENGTH);
    records
        .map(|record| record_lines(&points, record))
        .collect()
}

fn record_lines(points: &[Point], record: &[u8]) -> String {
    let columns = 0..Curve::Q_IS_4.field().size();
    let lines: String = columns.map(|x| column_line(points, record, x)).collect();
    format!("{lines}{:<18}\n", verdict(record))
}

fn column_line(points: &[Point], record: &[u8], x: u8) -> String {
    let column = points.iter().zip(record).filter(|(point, _)| point.x == x);
    let texts: String = column
        .map(|(point, &value)| format!(" {:x}={}", point.y, character(value)))
        .collect();
    format!("{x:x}:{texts}\n")
}

fn character(value: u8) -> String {
    match value {
        0..=15 => format!("{value:x}"),
        MISSING => ".".to_string(),
        _ => "?".to_string(),
    }
}

/// The whole record goes through recovery, which has no other outcomes than these.
fn verdict(record: &[u8]) -> String {
    match recovered(record).0 {
        Outcome::ACCEPTED => "ok".to_string(),
        Outcome { number: 9, .. } => "none".to_string(),
        Outcome { number: 10, second } => format!("several {second}"),
        _ => "bad".to_string(),
    }
}

#[cfg(test)]
mod tests {
    use super::*;

    fn lines(record: &[u8]) -> Vec<String> {
        page(record).lines().map(str::to_string).collect()
    }

    #[test]
    fn a_record_takes_17_lines_of_18_characters() {
        for value in [0, 15, 16, 254, 255] {
            let text = page(&[value; 64]);
            assert_eq!(text.len(), 17 * 19);
            assert!(text.lines().all(|line| line.len() == 18));
        }
    }

    #[test]
    fn the_columns_are_those_of_the_curve() {
        let record: Vec<u8> = (0..64).map(|place| place % 16).collect();
        let text = lines(&record);
        assert_eq!(text[0], "0: 0=0 1=1 6=2 7=3");
        assert_eq!(text[1], "1: 2=4 3=5 4=6 5=7");
        assert_eq!(text[15], "f: 2=c 3=d 4=e 5=f");
    }

    #[test]
    fn the_last_line_says_what_recovery_says() {
        let mut none = [0; 64];
        none[63] = 1;
        assert_eq!(lines(&[0; 64])[16], "ok                ");
        assert_eq!(lines(&[255; 64])[16], "several 32        ");
        assert_eq!(lines(&none)[16], "none              ");
    }

    #[test]
    fn every_bad_value_is_marked_and_good_ones_stay() {
        let mut record = [255; 64];
        (record[0], record[1], record[2], record[63]) = (16, 10, 254, 128);
        let text = lines(&record);
        assert_eq!(text[0], "0: 0=? 1=a 6=? 7=.");
        assert_eq!(text[15], "f: 2=. 3=. 4=. 5=?");
        assert_eq!(text[16], "bad               ");
    }

    #[test]
    fn a_short_last_part_prints_nothing() {
        assert_eq!(page(&[0; 63]), "");
        assert_eq!(page(&[0; 127]), page(&[0; 64]));
        assert_eq!(page(&[]), "");
    }
}
