//! "Times run from 00:00:00 to 23:59:59. A date is eight bare digits yyyymmdd, year 0000 to 9999, month 01 to 12, day from 01 to the
//! month's length: 30 for April, June, September and November, .. for February, else 31." P4: "February has 29 days when the year divides
//! by 4, except years that divide by 100 and not by 400; otherwise 28. Year 0000 counts as a leap year."

fn february(year: u32) -> u32 {
    match (year % 4, year % 100, year % 400) {
        (0, 0, 0) => 29,
        (0, 0, _) => 28,
        (0, _, _) => 29,
        _ => 28,
    }
}

pub fn is_real_date(n: u32) -> bool {
    if n > 99_999_999 {
        return false;
    }
    let text = format!("{n:08}");
    let year: u32 = text[0..4].parse().unwrap();
    let month: u32 = text[4..6].parse().unwrap();
    let day: u32 = text[6..8].parse().unwrap();
    let length = match month {
        1 | 3 | 5 | 7 | 8 | 10 | 12 => 31,
        4 | 6 | 9 | 11 => 30,
        2 => february(year),
        _ => 0,
    };
    day >= 1 && day <= length
}

pub fn is_real_time(n: u32) -> bool {
    if n > 999_999 {
        return false;
    }
    let text = format!("{n:06}");
    &text[0..2] <= "23" && &text[2..4] <= "59" && &text[4..6] <= "59"
}
