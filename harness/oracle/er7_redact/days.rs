//! The dates of the action `shift`: a date is moved by its number among all days, which is counted in eras of 400 years that begin on
//! 1 March.

/// The days from 1 March of the year 0 to a date; month 1 to 12.
fn day_number(year: i64, month: i64, day: i64) -> i64 {
    let march_year = if month <= 2 { year - 1 } else { year };
    let (era, of_era) = (march_year.div_euclid(400), march_year.rem_euclid(400));
    let of_year = (153 * ((month + 9) % 12) + 2) / 5 + day - 1;
    era * 146_097 + of_era * 365 + of_era / 4 - of_era / 100 + of_year
}

/// Year, month and day of a day's number.
fn date(number: i64) -> (i64, i64, i64) {
    let (era, of_era) = (number.div_euclid(146_097), number.rem_euclid(146_097));
    let march_year = (of_era - of_era / 1_460 + of_era / 36_524 - of_era / 146_096) / 365;
    let of_year = of_era - (march_year * 365 + march_year / 4 - march_year / 100);
    let march_month = (5 * of_year + 2) / 153;
    let month = if march_month < 10 { march_month + 3 } else { march_month - 9 };
    (era * 400 + march_year + i64::from(month <= 2), month, of_year - (153 * march_month + 2) / 5 + 1)
}

/// A date and the digits behind it, moved by some days; nothing for a value that is no date, nor where the years 1 to 9999 end.
pub(crate) fn moved(value: &str, days: i64) -> String {
    if !matches!(value.len(), 8 | 12 | 14) || !value.bytes().all(|b| b.is_ascii_digit()) {
        return String::new();
    }
    let part = |from: usize, to: usize| value[from..to].parse::<i64>().expect("digits");
    let (year, month, day) = (part(0, 4), part(4, 6), part(6, 8));
    if year < 1 || !(1..=12).contains(&month) || date(day_number(year, month, day)) != (year, month, day) {
        return String::new();
    }
    match date(day_number(year, month, day) + days) {
        (year @ 1..=9_999, month, day) => format!("{year:04}{month:02}{day:02}{}", &value[8..]),
        _ => String::new(),
    }
}
