//! Medians and quartiles, and how figures are written.

/// The middle of some figures, and what a quarter of them are at most and at least.
#[derive(Clone, Copy, Debug, PartialEq)]
pub struct Spread {
    pub lower: f64,
    pub median: f64,
    pub upper: f64,
}

/// What this share of the figures, which are in order, is at most; between two figures it is measured off.
fn quantile(sorted: &[f64], share: f64) -> f64 {
    let at = share * (sorted.len() - 1) as f64;
    let (below, above) = (sorted[at.floor() as usize], sorted[at.ceil() as usize]);
    below + (above - below) * at.fract()
}

/// Of one figure or more.
pub fn spread(mut figures: Vec<f64>) -> Spread {
    figures.sort_by(|a, b| a.partial_cmp(b).expect("a time is a number"));
    Spread { lower: quantile(&figures, 0.25), median: quantile(&figures, 0.5), upper: quantile(&figures, 0.75) }
}

/// A whole number with commas between thousands.
pub fn whole(number: u64) -> String {
    let digits = number.to_string();
    let behind = |at: usize| digits.len() - at;
    let comma = |at: usize| at > 0 && behind(at) % 3 == 0;
    digits.chars().enumerate().flat_map(|(at, digit)| comma(at).then_some(',').into_iter().chain(Some(digit))).collect()
}

/// Nanoseconds, with a tenth where there are fewer than a thousand.
pub fn nanoseconds(time: f64) -> String {
    match time < 999.95 {
        true => format!("{:.1}", time),
        false => whole(time.round() as u64),
    }
}

#[cfg(test)]
mod tests {
    use super::*;

    /// Of few figures by hand: where a share falls between two of them it is measured off.
    #[test]
    fn the_median_and_the_quartiles() {
        assert_eq!(spread(vec![5.0, 1.0, 3.0, 2.0, 4.0]), Spread { lower: 2.0, median: 3.0, upper: 4.0 });
        assert_eq!(spread(vec![4.0, 1.0]), Spread { lower: 1.75, median: 2.5, upper: 3.25 });
        assert_eq!(spread(vec![7.0]), Spread { lower: 7.0, median: 7.0, upper: 7.0 });
    }

    /// Up to three digits have none, and a time of a thousand nanoseconds or more has no tenth.
    #[test]
    fn commas_stand_between_thousands() {
        assert_eq!(["0", "999", "1,000", "12,345,678"], [0, 999, 1000, 12_345_678].map(whole)[..]);
        assert_eq!(["0.3", "999.9", "1,000"], [0.26, 999.94, 999.95].map(nanoseconds)[..]);
    }
}
