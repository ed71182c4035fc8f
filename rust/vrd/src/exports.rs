//! The names, arguments and answers of the exports of the Rattle crate `vrd_ffi`: the one place to change when that crate does, and the
//! only one with unsafe code. An export takes the generator as two lent arrays and changes them there. The exports are proved total: they
//! ask nothing of a caller beyond the types of their arguments. That is why they are declared as safe functions, but for those that take
//! a slice by its address.

/// A generator without its table: the kind, the twister's position (of which the low 32 bits count), and the kind's four small words.
pub type State = [u64; 6];

/// The twister's table.
pub type Table = [u32; 624];

/// A 128-bit number as two words.
#[repr(C)]
#[derive(Clone, Copy, Debug, Eq, PartialEq)]
pub struct Wide {
    pub high: u64,
    pub low: u64,
}

impl From<u128> for Wide {
    fn from(value: u128) -> Self {
        Self { high: (value >> 64) as u64, low: value as u64 }
    }
}

impl From<Wide> for u128 {
    fn from(value: Wide) -> Self {
        (u128::from(value.high) << 64) | u128::from(value.low)
    }
}

/// A word or a float. The export's names are Word, SignedWord, Number32 and Number64.
#[repr(C)]
#[derive(Clone, Copy, Debug, PartialEq)]
pub struct Word<V> {
    pub value: V,
    pub refusal: u32,
}

/// A number drawn within a budget, and the words used.
#[repr(C)]
#[derive(Clone, Copy, Debug, PartialEq)]
pub struct Number {
    pub value: u64,
    pub used: u32,
    pub refusal: u32,
}

/// The same with a signed number or a bool. The export's names are Integer and Coin.
#[repr(C)]
#[derive(Clone, Copy, Debug, PartialEq)]
pub struct Small<V> {
    pub used: u32,
    pub refusal: u32,
    pub value: V,
}

/// An entry with its place, and the words used.
#[repr(C)]
#[derive(Clone, Copy, Debug, PartialEq)]
pub struct Choice {
    pub place: u64,
    pub value: u64,
    pub used: u32,
    pub refusal: u32,
}

/// Whether two generators are equal.
#[repr(C)]
#[derive(Clone, Copy, Debug, PartialEq)]
pub struct Equality {
    pub refusal: u32,
    pub equal: bool,
}

unsafe extern "C" {
    pub safe fn vrd_xoshiro_with_seed_in(state: &mut State, seed: u64);
    pub safe fn vrd_mersenne_twister_with_seed_in(state: &mut State, table: &mut Table, seed: u32);
    pub safe fn vrd_pcg32_with_seed_in(state: &mut State, seed: u64);
    pub safe fn vrd_pcg64_with_seed_in(state: &mut State, seed: Wide);
    pub safe fn vrd_pcg32_with_stream_in(state: &mut State, seed: u64, stream: u64);
    pub safe fn vrd_pcg64_with_stream_in(state: &mut State, seed: Wide, stream: Wide);

    pub safe fn vrd_rand_in(state: &mut State, table: &mut Table) -> Word<u64>;
    pub safe fn vrd_u64_in(state: &mut State, table: &mut Table) -> Word<u64>;
    pub safe fn vrd_i64_in(state: &mut State, table: &mut Table) -> Word<i64>;
    pub safe fn vrd_pseudo_in(state: &mut State, table: &mut Table) -> Word<u64>;

    pub safe fn vrd_float_in(state: &mut State, table: &mut Table) -> Word<f32>;
    pub safe fn vrd_double_in(state: &mut State, table: &mut Table) -> Word<f64>;
    pub safe fn vrd_bool_in(state: &mut State, table: &mut Table, chance: f64) -> Small<bool>;
    pub safe fn vrd_uniform_in(state: &mut State, table: &mut Table, low: f64, high: f64) -> Word<f64>;

    pub safe fn vrd_bounded_in(state: &mut State, table: &mut Table, bound: u32, budget: u32) -> Number;
    pub safe fn vrd_random_range_in(state: &mut State, table: &mut Table, min: u32, max: u32, budget: u32) -> Number;
    pub safe fn vrd_uint_in(state: &mut State, table: &mut Table, min: u32, max: u32, budget: u32) -> Number;
    pub safe fn vrd_char_in(state: &mut State, table: &mut Table, budget: u32) -> Number;
    pub safe fn vrd_int_in(state: &mut State, table: &mut Table, min: i32, max: i32, budget: u32) -> Small<i32>;
    pub safe fn vrd_range_in(state: &mut State, table: &mut Table, min: i32, max: i32, budget: u32) -> Small<i32>;

    pub safe fn vrd_seed_in(state: &mut State, table: &mut Table, seed: u32) -> u32;
    pub safe fn vrd_twist_in(state: &mut State, table: &mut Table) -> u32;
    pub safe fn vrd_set_mti_in(state: &mut State, value: u32) -> u32;
    pub safe fn vrd_mti_in(state: &State) -> Word<u64>;
    pub safe fn vrd_split_in(state: &mut State, child: &mut State) -> u32;
    pub safe fn vrd_same_in(state: &State, table: &Table, other: &State, other_table: &Table) -> Equality;

    pub safe fn vrd_list_limit() -> u64;
}

// Lists and buffers cross as an address and a length: the address must be that of so many entries.
unsafe extern "C" {
    fn vrd_make_in(state: &mut State, table: &mut Table, kind: u32, seed: *const u8, length: usize) -> u32;
    fn vrd_fill_bytes_in(state: &mut State, table: &mut Table, dest: *mut u8, length: usize) -> u32;
    fn vrd_choose_in(state: &mut State, table: &mut Table, list: *const u32, length: usize, budget: u32) -> Choice;
    fn vrd_rand_slice_in(state: &mut State, table: &mut Table, list: *const u32, length: usize, window: usize, budget: u32) -> Number;
    fn vrd_shuffle_in(state: &mut State, table: &mut Table, list: *mut u32, length: usize, budget: u32) -> Number;
}

/// A generator of a kind number and a byte seed, written to the arrays; the refusal's number.
#[inline]
pub fn make(state: &mut State, table: &mut Table, kind: u32, seed: &[u8]) -> u32 {
    // SAFETY: address and length are those of one slice.
    unsafe { vrd_make_in(state, table, kind, seed.as_ptr(), seed.len()) }
}

/// Fills the buffer; the refusal's number.
#[inline]
pub fn fill_bytes(state: &mut State, table: &mut Table, dest: &mut [u8]) -> u32 {
    // SAFETY: address and length are those of one slice, which nothing else uses meanwhile.
    unsafe { vrd_fill_bytes_in(state, table, dest.as_mut_ptr(), dest.len()) }
}

/// An entry of the list.
#[inline]
pub fn choose(state: &mut State, table: &mut Table, list: &[u32], budget: u32) -> Choice {
    // SAFETY: address and length are those of one slice.
    unsafe { vrd_choose_in(state, table, list.as_ptr(), list.len(), budget) }
}

/// The start of a part of the list that is `window` long.
#[inline]
pub fn rand_slice(state: &mut State, table: &mut Table, list: &[u32], window: usize, budget: u32) -> Number {
    // SAFETY: address and length are those of one slice.
    unsafe { vrd_rand_slice_in(state, table, list.as_ptr(), list.len(), window, budget) }
}

/// The list in another order.
#[inline]
pub fn shuffle(state: &mut State, table: &mut Table, list: &mut [u32], budget: u32) -> Number {
    // SAFETY: address and length are those of one slice, which nothing else uses meanwhile.
    unsafe { vrd_shuffle_in(state, table, list.as_mut_ptr(), list.len(), budget) }
}
