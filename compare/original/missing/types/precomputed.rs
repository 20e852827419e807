// Stands in for the missing types/precomputed.rs: shared copies of the word types and of the
// types of the SHA-256 context, built with the unmodified `Final::sum` and `Final::product`.

use super::Final;
use std::sync::{Arc, OnceLock};

pub fn nth_power_of_2(n: usize) -> Arc<Final> {
    static POWERS: OnceLock<Vec<Arc<Final>>> = OnceLock::new();
    let powers = POWERS.get_or_init(|| {
        let mut t = vec![Final::sum(Final::unit(), Final::unit())];
        for i in 1..32 {
            t.push(Final::product(Arc::clone(&t[i - 1]), Arc::clone(&t[i - 1])));
        }
        t
    });
    Arc::clone(&powers[n])
}

pub fn buffer8_two_n_plus_one(n: usize) -> Arc<Final> {
    let here = Final::successor(nth_power_of_2(n + 3));
    if n == 0 {
        here
    } else {
        Final::product(here, buffer8_two_n_plus_one(n - 1))
    }
}

pub fn ctx8() -> Arc<Final> {
    Final::product(buffer8_two_n_plus_one(5), Final::product(nth_power_of_2(6), nth_power_of_2(8)))
}
