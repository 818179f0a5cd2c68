//! The pass over a district's last orders in vector instructions written by hand: what can be had of a processor without extensions.

use second::layout::{district, Layout};
use second::replay::Lent;
use second::Request;
use std::arch::x86_64::{
    __m128i, _mm_add_epi64, _mm_castsi128_pd, _mm_loadu_si128, _mm_movemask_pd, _mm_or_si128,
    _mm_set1_epi64x, _mm_setzero_si128,
};

/// Whether all last orders of a New-Order's district are below its next order number.
pub fn passes(lent: &Lent, layout: &Layout, request: &Request) -> bool {
    let Request::NewOrder(r) = request else {
        panic!("an order is asked for");
    };
    let (w, d) = (r.warehouse as usize, r.district as usize);
    let next = lent.nums[layout.district(w, d)][district::NEXT_ORDER];
    all_before(&lent.last[layout.last_orders_of(w, d)], next)
}

/// Each number is one of 0, .., next - 1. Two numbers take a load, a sum and two ors; eight are taken a turn.
fn all_before(numbers: &[i64], next: i64) -> bool {
    let mut eights = numbers.chunks_exact(8);
    // SAFETY: every x86-64 processor has these instructions; two numbers are read where a chunk of two is.
    let signs = unsafe {
        let room = _mm_set1_epi64x(i64::MIN.wrapping_sub(next));
        let mut found = [_mm_setzero_si128(); 4];
        for eight in &mut eights {
            for (place, two) in eight.chunks_exact(2).enumerate() {
                let numbers = _mm_loadu_si128(two.as_ptr().cast::<__m128i>());
                let (low, high) = (2 * place % 4, (2 * place + 1) % 4);
                found[low] = _mm_or_si128(found[low], numbers);
                found[high] = _mm_or_si128(found[high], _mm_add_epi64(numbers, room));
            }
        }
        let all = found
            .into_iter()
            .fold(_mm_setzero_si128(), |a, b| _mm_or_si128(a, b));
        _mm_movemask_pd(_mm_castsi128_pd(all))
    };
    signs == 0
        && eights
            .remainder()
            .iter()
            .all(|number| (0..next).contains(number))
}
