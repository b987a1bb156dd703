//! 01, "Clock and authority": the clock that the host gives.

use crate::forms::{is_keyword, Value};
use crate::text::{read_form, Item, Kind, Name};

#[derive(Clone, Copy, Debug, PartialEq, Eq)]
pub struct Clock {
    pub year: u64,
    pub day: u64,
    pub hour: u64,
}

/// 01: "divisible by 4, not by 100 unless by 400".
pub fn is_leap(year: u64) -> bool {
    year % 4 == 0 && (year % 100 != 0 || year % 400 == 0)
}

impl Clock {
    /// 01: "year 1 to 9999, day 1 to 365, or 366 in a Gregorian leap year .., and hour 0 to 23".
    pub fn in_range(&self) -> bool {
        let last_day = if is_leap(self.year) { 366 } else { 365 };
        (1..=9999).contains(&self.year) && (1..=last_day).contains(&self.day) && self.hour <= 23
    }

    /// 01: "`year`, `day`, `hour` exist already, as numbers."
    pub fn value<'a>(&self, name: Name) -> Option<Value<'a>> {
        let number = match &name.small()[..] {
            b"year" => self.year,
            b"day" => self.day,
            b"hour" => self.hour,
            _ => return None,
        };
        i64::try_from(number).ok().map(Value::Number)
    }
}

/// 01, "Sample session": "a line `(clock YEAR DAY HOUR)`"; a number below 0 is no clock either way.
pub fn read_clock_line(line: &[u8]) -> Option<Clock> {
    let items = read_form(line, 0)?;
    let [keyword, year, day, hour] = &items[..] else { return None };
    if !is_keyword(keyword, "clock") {
        return None;
    }
    Some(Clock { year: natural(year)?, day: natural(day)?, hour: natural(hour)? })
}

/// A number item from 0 on.
fn natural(item: &Item) -> Option<u64> {
    match item.kind {
        Kind::Number(number) => u64::try_from(number).ok(),
        _ => None,
    }
}

#[cfg(test)]
mod tests {
    use super::*;

    fn ok(year: u64, day: u64, hour: u64) -> bool {
        Clock { year, day, hour }.in_range()
    }

    #[test]
    fn ranges_by_01() {
        assert!(ok(1, 1, 0));
        assert!(ok(9999, 365, 23));
        assert!(!ok(0, 1, 0));
        assert!(!ok(10000, 1, 0));
        assert!(!ok(1, 0, 0));
        assert!(!ok(1, 1, 24));
        assert!(!ok(2027, 366, 10));
        assert!(ok(2028, 366, 10));
        assert!(!ok(2028, 367, 10));
        assert!(!ok(1900, 366, 10));
        assert!(ok(2000, 366, 10));
        assert!(!ok(u64::MAX, u64::MAX, u64::MAX));
    }

    #[test]
    fn clock_lines_by_01() {
        assert_eq!(read_clock_line(b"(clock 2028 366 10)"), Some(Clock { year: 2028, day: 366, hour: 10 }));
        // 02, Q-8: keywords without case.
        for good in ["(CLOCK 2028 366 10)", "(Clock 2028 366 10)", "(cLOCk 2028 366 10)"] {
            assert_eq!(read_clock_line(good.as_bytes()), Some(Clock { year: 2028, day: 366, hour: 10 }));
        }
        for bad in ["", "(clock 2028 366)", "(clock 2028 366 10 )", "(clock 2028 366 -1)", "(clock 02028 366 10)", "(clocks 1 1 1)", "(clock 1 1 1 1)", "(clock a 1 1)"] {
            assert_eq!(read_clock_line(bad.as_bytes()), None);
        }
    }
}
