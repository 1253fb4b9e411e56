//! Vectors of bytes for the processor. Stable Rust has none: these are arrays, and the compiler makes vectors of the
//! loops over them.

pub mod prelude {
    pub use super::{Simd, u8x16, u8x32};
}

/// N lanes. The compiler makes vectors of the loops.
#[derive(Clone, Copy)]
pub struct Simd<T, const N: usize>([T; N]);

#[allow(non_camel_case_types)]
pub type u8x16 = Simd<u8, 16>;
#[allow(non_camel_case_types)]
pub type u8x32 = Simd<u8, 32>;

#[derive(Clone, Copy)]
pub struct Mask<const N: usize>([u8; N]);

impl<const N: usize> Simd<u8, N> {
    #[inline(always)]
    pub fn splat(value: u8) -> Self {
        Simd([value; N])
    }

    #[inline(always)]
    pub fn from_slice(from: &[u8]) -> Self {
        match from.first_chunk::<N>() {
            Some(lanes) => Simd(*lanes),
            None => panic!("too few bytes"),
        }
    }

    #[inline(always)]
    pub fn copy_to_slice(self, to: &mut [u8]) {
        match to.first_chunk_mut::<N>() {
            Some(lanes) => *lanes = self.0,
            None => panic!("too few bytes"),
        }
    }

    #[inline(always)]
    pub fn from_array(lanes: [u8; N]) -> Self {
        Simd(lanes)
    }

    /// The lane of `self` whose number each lane of `at` is, and 0 for a number that no lane has.
    #[inline(always)]
    pub fn swizzle_dyn(self, at: Self) -> Self {
        Simd(at.0.map(|i| if (i as usize) < N { self.0[i as usize] } else { 0 }))
    }

    /// The lanes that are equal have their highest bit set, and all else is 0. N is a multiple of 8.
    #[inline(always)]
    pub fn simd_eq(self, other: Self) -> Mask<N> {
        const LOW: u64 = 0x7f7f_7f7f_7f7f_7f7f;
        let mut mask = [0; N];
        let (out, _) = mask.as_chunks_mut::<8>();
        let (one, _) = self.0.as_chunks::<8>();
        let (two, _) = other.0.as_chunks::<8>();
        for i in 0..out.len() {
            let other = u64::from_ne_bytes(one[i]) ^ u64::from_ne_bytes(two[i]);
            out[i] = (!(((other & LOW) + LOW) | other | LOW)).to_ne_bytes();
        }
        Mask(mask)
    }

    #[inline(always)]
    pub fn simd_gt(self, other: Self) -> Mask<N> {
        Mask(std::array::from_fn(|i| if self.0[i] > other.0[i] { 255 } else { 0 }))
    }
}

impl<const N: usize> std::ops::BitAnd for Simd<u8, N> {
    type Output = Self;
    #[inline(always)]
    fn bitand(self, other: Self) -> Self {
        Simd(std::array::from_fn(|i| self.0[i] & other.0[i]))
    }
}

impl<const N: usize> std::ops::Shr for Simd<u8, N> {
    type Output = Self;
    #[inline(always)]
    fn shr(self, other: Self) -> Self {
        Simd(std::array::from_fn(|i| self.0[i] >> (other.0[i] & 7)))
    }
}

/// A bit of each lane: what a mask has of them, counted when it is asked.
#[derive(Clone, Copy)]
pub struct Bits<const N: usize>([u8; N]);

impl<const N: usize> Mask<N> {
    #[inline(always)]
    pub fn to_bitmask(self) -> Bits<N> {
        Bits(self.0)
    }
}

impl<const N: usize> PartialEq<u64> for Bits<N> {
    #[inline(always)]
    fn eq(&self, number: &u64) -> bool {
        assert!(*number == 0);
        let (eights, rest) = self.0.as_chunks::<8>();
        let any = eights.iter().fold(0, |any, lanes| any | u64::from_ne_bytes(*lanes));
        any == 0 && rest.iter().all(|lane| *lane == 0)
    }
}

impl<const N: usize> Bits<N> {
    #[inline(always)]
    pub fn trailing_zeros(self) -> u32 {
        let (eights, _) = self.0.as_chunks::<8>();
        let mut at = 0;
        for lanes in eights {
            let lanes = u64::from_le_bytes(*lanes);
            if lanes != 0 {
                return at + lanes.trailing_zeros() / 8;
            }
            at += 8;
        }
        at
    }
}
