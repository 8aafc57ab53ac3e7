//! Gregorian dates, for the years 2000 to 2101 that an account can touch.

/// A date as written: it need not exist, see `exists`.
#[derive(Clone, Copy, Debug, PartialEq, Eq, PartialOrd, Ord)]
pub struct Date {
    pub year: u32,
    pub month: u32,
    pub day: u32,
}

pub const SATURDAY: u32 = 5;
pub const SUNDAY: u32 = 6;

pub fn is_leap(year: u32) -> bool {
    year % 4 == 0 && (year % 100 != 0 || year % 400 == 0)
}

/// 0 for a month that does not exist.
pub fn days_in_month(year: u32, month: u32) -> u32 {
    match month {
        1 | 3 | 5 | 7 | 8 | 10 | 12 => 31,
        4 | 6 | 9 | 11 => 30,
        2 if is_leap(year) => 29,
        2 => 28,
        _ => 0,
    }
}

impl Date {
    pub fn new(year: u32, month: u32, day: u32) -> Date {
        Date { year, month, day }
    }

    pub fn exists(self) -> bool {
        1 <= self.day && self.day <= days_in_month(self.year, self.month)
    }

    pub fn next(self) -> Date {
        if self.day < days_in_month(self.year, self.month) {
            Date::new(self.year, self.month, self.day + 1)
        } else if self.month < 12 {
            Date::new(self.year, self.month + 1, 1)
        } else {
            Date::new(self.year + 1, 1, 1)
        }
    }

    pub fn plus(self, days: u32) -> Date {
        let mut date = self;
        for _ in 0..days {
            date = date.next();
        }
        date
    }

    /// Days since 2000-01-01, for a date that exists and is not before it.
    pub fn number(self) -> u32 {
        let years: u32 = (2000..self.year).map(|y| if is_leap(y) { 366 } else { 365 }).sum();
        let months: u32 = (1..self.month).map(|m| days_in_month(self.year, m)).sum();
        years + months + self.day - 1
    }

    /// 0 is Monday, 6 is Sunday. 2000-01-01 was a Saturday.
    pub fn weekday(self) -> u32 {
        (self.number() + SATURDAY) % 7
    }

    /// How many calendar months after the month of `opening` this date lies.
    pub fn months_after(self, opening: Date) -> u32 {
        self.year * 12 + self.month - (opening.year * 12 + opening.month)
    }
}
