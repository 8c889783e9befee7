//! Prices.

/// The sum of the prices, less the discount.
pub fn total(prices: &[i64], discount: i64) -> i64 {
    prices.iter().sum::<i64>() - discount
}

#[cfg(test)]
mod tests {
    use super::*;

    #[test]
    fn sums() {
        assert_eq!(total(&[2, 3], 0), 5);
    }

    #[test]
    fn takes_the_discount_off() {
        assert_eq!(total(&[2, 3], 1), 4);
    }
}
