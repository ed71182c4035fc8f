//! The lines put after the original's text: a state that is set is the state that is read, and the original draws from it.

use vrd_original::pcg::{Pcg32, Pcg64};
use vrd_original::xoshiro::Xoshiro256PlusPlus;
use vrd_original::{Random, RngBackend};

#[test]
fn parts_are_read_back() {
    for state in [[0; 4], [1, 2, 3, 4], [u64::MAX; 4]] {
        assert_eq!(Xoshiro256PlusPlus::from_parts(state).parts(), state);
    }
    for (state, inc) in [(0, 0), (1, 2), (u64::MAX, u64::MAX)] {
        assert_eq!(Pcg32::from_parts(state, inc).parts(), (state, inc));
    }
    for (state, inc) in [(0, 0), (1, 2), (u128::MAX, 1 << 64)] {
        assert_eq!(Pcg64::from_parts(state, inc).parts(), (state, inc));
    }
}

#[test]
fn a_facade_over_a_backend_draws_its_words() {
    let mut own = Xoshiro256PlusPlus::from_parts([1, 2, 3, 4]);
    let mut facade = Random::from_backend(RngBackend::Xoshiro256PlusPlus(own));
    for _ in 0..100 {
        assert_eq!(facade.u64(), own.next_u64());
    }
}

#[test]
fn the_published_words_of_pcg32() {
    let mut generator = Pcg32::from_seed_stream(42, 54);
    for word in [0xa15c02b7, 0x7b47f409, 0xba1d3330, 0x83d2f293, 0xbfa4784b, 0xcbed606e] {
        assert_eq!(generator.next_u32(), word);
    }
}
