//! The two parting rules: largest remainder and running.

use std::cmp::Reverse;

// Sums and totals are at most 3,000,000,000, so that every product here fits into 64 bits.

pub fn largest_remainder(sum: i64, weights: &[i64]) -> Vec<i64> {
    let total: i64 = weights.iter().sum();
    let mut shares: Vec<i64> = weights.iter().map(|w| w * sum / total).collect();
    let left = sum - shares.iter().sum::<i64>();
    // The sort is stable: on a tie the lower member stays first.
    let mut order: Vec<usize> = (0..weights.len()).collect();
    order.sort_by_key(|&i| Reverse(weights[i] * sum % total));
    for &i in order.iter().take(left as usize) {
        shares[i] += 1;
    }
    shares
}

pub fn running(sum: i64, weights: &[i64]) -> Vec<i64> {
    let total: i64 = weights.iter().sum();
    let mut weight_so_far = 0;
    let mut given_so_far = 0;
    let share = |weight: &i64| {
        weight_so_far += weight;
        let given = weight_so_far * sum / total;
        let share = given - given_so_far;
        given_so_far = given;
        share
    };
    weights.iter().map(share).collect()
}

#[cfg(test)]
mod tests {
    use super::*;

    #[test]
    fn sums_of_the_rules() {
        assert_eq!(largest_remainder(10, &[1, 1, 1]), [4, 3, 3]);
        assert_eq!(running(10, &[1, 1, 1]), [3, 3, 4]);
        assert_eq!(largest_remainder(1, &[0, 1, 1]), [0, 1, 0]);
        assert_eq!(running(1, &[0, 1, 1]), [0, 0, 1]);
        let weights = [2_850, 1_900, 3_500, 1_500];
        let shares = [3_069, 2_046, 3_769, 1_616];
        assert_eq!(largest_remainder(10_500, &weights), shares);
        assert_eq!(running(10_500, &weights), shares);
        let shares = largest_remainder(7_500, &[4_750, 3_500]);
        assert_eq!(shares, [4_318, 3_182]);
    }

    #[test]
    fn the_greatest_sum_and_total_fit() {
        let most = 3_000_000_000;
        assert_eq!(largest_remainder(most, &[most]), [most]);
        assert_eq!(running(most, &[0, most, 0]), [0, most, 0]);
        assert_eq!(running(most, &[187_500_000; 16]), [187_500_000; 16]);
    }
}
