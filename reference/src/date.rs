//! 02, Q-14: "A `date` column holds `(YEAR MONTH DAY)`". Days are counted from the lengths of months.

use crate::clock::is_leap;

/// A date as it is written: three numbers of any size, whether or not there is such a day.
#[derive(Clone, Copy, Debug, PartialEq, Eq)]
pub struct Date {
    pub year: i64,
    pub month: i64,
    pub day: i64,
}

/// How many days a month of a year has; 0 where there is no such month.
fn month_length(year: i64, month: i64) -> i64 {
    match month {
        2 if u64::try_from(year).is_ok_and(is_leap) => 29,
        2 => 28,
        4 | 6 | 9 | 11 => 30,
        1..=12 => 31,
        _ => 0,
    }
}

impl Date {
    /// 02, Q-14: a date there is, "over years 1 to 9999"; 31 is given for the others.
    pub fn exists(&self) -> bool {
        (1..=9999).contains(&self.year) && (1..=month_length(self.year, self.month)).contains(&self.day)
    }

    /// 02, Q-14: "the pair of year and day number", the first of January being day 1, as the clock has it.
    pub fn year_day(&self) -> (i64, i64) {
        let before: i64 = (1..=12).filter(|month| *month < self.month).map(|month| month_length(self.year, month)).sum();
        (self.year, before + self.day)
    }
}

#[cfg(test)]
mod tests {
    use super::*;
    use crate::clock::Clock;

    fn date(year: i64, month: i64, day: i64) -> Date {
        Date { year, month, day }
    }

    /// Every day of the years 1 to 9999, one after the other: just these dates are there, and their pairs are just the days of the
    /// clock, in order. So the conversion is exact both ways.
    #[test]
    fn every_day_there_is() {
        let mut days = 0;
        for year in 1..=9999 {
            let mut number = 0;
            for month in 0..=13 {
                for day in 0..=32 {
                    let date = date(year, month, day);
                    if date.exists() {
                        number += 1;
                        assert_eq!(date.year_day(), (year, number));
                    }
                }
            }
            let in_year = |day: i64| Clock { year: year as u64, day: day as u64, hour: 0 }.in_range();
            assert!(in_year(number) && !in_year(number + 1), "{year}");
            days += number;
        }
        // 9,999 years of 365 days and 2,424 leap days: 2,499 fourths, less 99 hundredths, and 24 four hundredths.
        assert_eq!(days, 9_999 * 365 + 2_499 - 99 + 24);
    }

    #[test]
    fn months_by_the_calendar() {
        let lengths = [31, 28, 31, 30, 31, 30, 31, 31, 30, 31, 30, 31];
        for (month, length) in (1..).zip(lengths) {
            assert!(date(2027, month, 1).exists() && date(2027, month, length).exists(), "{month}");
            assert!(!date(2027, month, 0).exists() && !date(2027, month, length + 1).exists(), "{month}");
        }
        for year in [4, 1996, 2000, 2024, 2028, 2400, 9996] {
            assert!(date(year, 2, 29).exists() && !date(year, 2, 30).exists(), "{year}");
            assert_eq!(date(year, 3, 1).year_day(), (year, 61));
            assert_eq!(date(year, 12, 31).year_day(), (year, 366));
        }
        for year in [1, 100, 1900, 2027, 2100, 2200, 2300, 9999] {
            assert!(date(year, 2, 28).exists() && !date(year, 2, 29).exists(), "{year}");
            assert_eq!(date(year, 3, 1).year_day(), (year, 60));
            assert_eq!(date(year, 12, 31).year_day(), (year, 365));
        }
    }

    #[test]
    fn no_such_dates() {
        for (year, month, day) in [
            (0, 1, 1), (10_000, 1, 1), (-1, 1, 1), (-4, 2, 29), (2028, 0, 1), (2028, 13, 1), (2028, -1, 1), (2028, 1, -1), (2028, 4, 31),
            (i64::MAX, 1, 1), (i64::MIN, 1, 1), (2028, i64::MAX, 1), (2028, i64::MIN, 1), (2028, 1, i64::MAX), (2028, 1, i64::MIN),
        ] {
            assert!(!date(year, month, day).exists(), "({year} {month} {day})");
        }
    }
}
