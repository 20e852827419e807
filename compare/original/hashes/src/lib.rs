// Stands in for the crate `bitcoin_hashes` under the name `hashes`.
// Only what the original files name is here: SHA-256, its midstate, its engine.
// The constants are those of FIPS 180-4.

pub mod sha256 {
    const K: [u32; 64] = [
        0x428a2f98, 0x71374491, 0xb5c0fbcf, 0xe9b5dba5, 0x3956c25b, 0x59f111f1, 0x923f82a4, 0xab1c5ed5, 0xd807aa98,
        0x12835b01, 0x243185be, 0x550c7dc3, 0x72be5d74, 0x80deb1fe, 0x9bdc06a7, 0xc19bf174, 0xe49b69c1, 0xefbe4786,
        0x0fc19dc6, 0x240ca1cc, 0x2de92c6f, 0x4a7484aa, 0x5cb0a9dc, 0x76f988da, 0x983e5152, 0xa831c66d, 0xb00327c8,
        0xbf597fc7, 0xc6e00bf3, 0xd5a79147, 0x06ca6351, 0x14292967, 0x27b70a85, 0x2e1b2138, 0x4d2c6dfc, 0x53380d13,
        0x650a7354, 0x766a0abb, 0x81c2c92e, 0x92722c85, 0xa2bfe8a1, 0xa81a664b, 0xc24b8b70, 0xc76c51a3, 0xd192e819,
        0xd6990624, 0xf40e3585, 0x106aa070, 0x19a4c116, 0x1e376c08, 0x2748774c, 0x34b0bcb5, 0x391c0cb3, 0x4ed8aa4a,
        0x5b9cca4f, 0x682e6ff3, 0x748f82ee, 0x78a5636f, 0x84c87814, 0x8cc70208, 0x90befffa, 0xa4506ceb, 0xbef9a3f7,
        0xc67178f2,
    ];

    const INIT: [u32; 8] =
        [0x6a09e667, 0xbb67ae85, 0x3c6ef372, 0xa54ff53a, 0x510e527f, 0x9b05688c, 0x1f83d9ab, 0x5be0cd19];

    /// One application of the compression function, usable at compile time.
    pub const fn compress_const(state: [u32; 8], block: &[u8; 64]) -> [u32; 8] {
        let mut w = [0u32; 64];
        let mut i = 0;
        while i < 16 {
            w[i] = ((block[4 * i] as u32) << 24)
                | ((block[4 * i + 1] as u32) << 16)
                | ((block[4 * i + 2] as u32) << 8)
                | (block[4 * i + 3] as u32);
            i += 1;
        }
        while i < 64 {
            let s0 = w[i - 15].rotate_right(7) ^ w[i - 15].rotate_right(18) ^ (w[i - 15] >> 3);
            let s1 = w[i - 2].rotate_right(17) ^ w[i - 2].rotate_right(19) ^ (w[i - 2] >> 10);
            w[i] = w[i - 16].wrapping_add(s0).wrapping_add(w[i - 7]).wrapping_add(s1);
            i += 1;
        }
        let [mut a, mut b, mut c, mut d, mut e, mut f, mut g, mut h] = state;
        i = 0;
        while i < 64 {
            let s1 = e.rotate_right(6) ^ e.rotate_right(11) ^ e.rotate_right(25);
            let ch = (e & f) ^ (!e & g);
            let t1 = h.wrapping_add(s1).wrapping_add(ch).wrapping_add(K[i]).wrapping_add(w[i]);
            let s0 = a.rotate_right(2) ^ a.rotate_right(13) ^ a.rotate_right(22);
            let maj = (a & b) ^ (a & c) ^ (b & c);
            let t2 = s0.wrapping_add(maj);
            h = g;
            g = f;
            f = e;
            e = d.wrapping_add(t1);
            d = c;
            c = b;
            b = a;
            a = t1.wrapping_add(t2);
            i += 1;
        }
        [
            state[0].wrapping_add(a),
            state[1].wrapping_add(b),
            state[2].wrapping_add(c),
            state[3].wrapping_add(d),
            state[4].wrapping_add(e),
            state[5].wrapping_add(f),
            state[6].wrapping_add(g),
            state[7].wrapping_add(h),
        ]
    }

    const fn to_words(b: &[u8; 32]) -> [u32; 8] {
        let mut w = [0u32; 8];
        let mut i = 0;
        while i < 8 {
            w[i] = ((b[4 * i] as u32) << 24)
                | ((b[4 * i + 1] as u32) << 16)
                | ((b[4 * i + 2] as u32) << 8)
                | (b[4 * i + 3] as u32);
            i += 1;
        }
        w
    }

    const fn to_bytes(w: &[u32; 8]) -> [u8; 32] {
        let mut b = [0u8; 32];
        let mut i = 0;
        while i < 8 {
            b[4 * i] = (w[i] >> 24) as u8;
            b[4 * i + 1] = (w[i] >> 16) as u8;
            b[4 * i + 2] = (w[i] >> 8) as u8;
            b[4 * i + 3] = w[i] as u8;
            i += 1;
        }
        b
    }

    #[cfg(target_arch = "x86_64")]
    mod ni {
        use core::arch::x86_64::*;

        /// The same with the processor's SHA instructions, as `bitcoin_hashes` does where it can.
        #[target_feature(enable = "sha,sse2,ssse3,sse4.1")]
        pub unsafe fn compress(state: &mut [u32; 8], block: &[u8; 64]) {
            let mask = _mm_set_epi64x(0x0c0d0e0f08090a0bu64 as i64, 0x0405060700010203u64 as i64);
            let mut tmp = _mm_loadu_si128(state.as_ptr() as *const __m128i);
            let mut s1 = _mm_loadu_si128(state.as_ptr().add(4) as *const __m128i);
            tmp = _mm_shuffle_epi32(tmp, 0xB1);
            s1 = _mm_shuffle_epi32(s1, 0x1B);
            let mut s0 = _mm_alignr_epi8(tmp, s1, 8);
            s1 = _mm_blend_epi16(s1, tmp, 0xF0);
            let save0 = s0;
            let save1 = s1;
            let mut m = [_mm_setzero_si128(); 4];
            for (i, mi) in m.iter_mut().enumerate() {
                *mi = _mm_shuffle_epi8(_mm_loadu_si128(block.as_ptr().add(16 * i) as *const __m128i), mask);
            }
            for g in 0..16 {
                let kv = _mm_loadu_si128(super::K.as_ptr().add(4 * g) as *const __m128i);
                let msg = _mm_add_epi32(m[g % 4], kv);
                s1 = _mm_sha256rnds2_epu32(s1, s0, msg);
                if g < 12 {
                    // w[4g+16..4g+20] takes the place of w[4g..4g+4]
                    let t = _mm_sha256msg1_epu32(m[g % 4], m[(g + 1) % 4]);
                    let x = _mm_alignr_epi8(m[(g + 3) % 4], m[(g + 2) % 4], 4);
                    m[g % 4] = _mm_sha256msg2_epu32(_mm_add_epi32(t, x), m[(g + 3) % 4]);
                }
                s0 = _mm_sha256rnds2_epu32(s0, s1, _mm_shuffle_epi32(msg, 0x0E));
            }
            s0 = _mm_add_epi32(s0, save0);
            s1 = _mm_add_epi32(s1, save1);
            tmp = _mm_shuffle_epi32(s0, 0x1B);
            s1 = _mm_shuffle_epi32(s1, 0xB1);
            s0 = _mm_blend_epi16(tmp, s1, 0xF0);
            s1 = _mm_alignr_epi8(s1, tmp, 8);
            _mm_storeu_si128(state.as_mut_ptr() as *mut __m128i, s0);
            _mm_storeu_si128(state.as_mut_ptr().add(4) as *mut __m128i, s1);
        }
    }

    /// One application of the compression function.
    #[inline]
    pub fn compress(state: &mut [u32; 8], block: &[u8; 64]) {
        if cfg!(feature = "nohash") {
            return;
        }
        #[cfg(target_arch = "x86_64")]
        if !cfg!(feature = "soft")
            && std::is_x86_feature_detected!("sha")
            && std::is_x86_feature_detected!("ssse3")
            && std::is_x86_feature_detected!("sse4.1")
        {
            unsafe { ni::compress(state, block) };
            return;
        }
        *state = compress_const(*state, block);
    }

    /// A SHA-256 state after a whole number of blocks.
    #[derive(Copy, Clone, PartialEq, Eq, PartialOrd, Ord, Hash, Debug)]
    pub struct Midstate {
        bytes: [u8; 32],
        bytes_hashed: u64,
    }

    impl Midstate {
        pub const fn new(bytes: [u8; 32], bytes_hashed: u64) -> Self {
            assert!(bytes_hashed % 64 == 0);
            Midstate { bytes, bytes_hashed }
        }
        pub const fn to_parts(self) -> ([u8; 32], u64) {
            (self.bytes, self.bytes_hashed)
        }
        /// The state after one more block.
        #[inline]
        pub fn block(self, block: &[u8; 64]) -> Self {
            let mut s = to_words(&self.bytes);
            compress(&mut s, block);
            Midstate { bytes: to_bytes(&s), bytes_hashed: self.bytes_hashed + 64 }
        }
        /// The same at compile time.
        pub const fn block_const(self, block: &[u8; 64]) -> Self {
            let s = compress_const(to_words(&self.bytes), block);
            Midstate { bytes: to_bytes(&s), bytes_hashed: self.bytes_hashed + 64 }
        }
        pub const fn start() -> Self {
            Midstate { bytes: to_bytes(&INIT), bytes_hashed: 0 }
        }
    }

    /// SHA-256 of a message of less than 56 bytes, at compile time too.
    pub const fn hash_short(msg: &[u8]) -> [u8; 32] {
        assert!(msg.len() < 56);
        let mut block = [0u8; 64];
        let mut i = 0;
        while i < msg.len() {
            block[i] = msg[i];
            i += 1;
        }
        block[i] = 0x80;
        let bits = (msg.len() * 8) as u16;
        block[62] = (bits >> 8) as u8;
        block[63] = bits as u8;
        Midstate::start().block_const(&block).to_parts().0
    }

    /// SHA-256 of any message.
    pub fn hash(msg: &[u8]) -> [u8; 32] {
        let mut m = msg.to_vec();
        m.push(0x80);
        while m.len() % 64 != 56 {
            m.push(0);
        }
        m.extend_from_slice(&((msg.len() as u64) * 8).to_be_bytes());
        let mut st = Midstate::start();
        for c in m.chunks(64) {
            st = st.block(c.try_into().unwrap());
        }
        st.to_parts().0
    }

    /// A running hash. Named by `Value::ctx8_from_hash_engine` only.
    #[derive(Clone)]
    pub struct HashEngine {
        state: Midstate,
        buffer: Vec<u8>,
    }

    impl HashEngine {
        #[allow(clippy::new_without_default)]
        pub fn new() -> Self {
            HashEngine { state: Midstate::start(), buffer: vec![] }
        }
        pub fn input(&mut self, data: &[u8]) {
            for b in data {
                self.buffer.push(*b);
                if self.buffer.len() == 64 {
                    let block: [u8; 64] = self.buffer[..].try_into().unwrap();
                    self.state = self.state.block(&block);
                    self.buffer.clear();
                }
            }
        }
        pub fn midstate(&self) -> Result<Midstate, MidstateError> {
            if self.buffer.is_empty() {
                Ok(self.state)
            } else {
                Err(MidstateError { state: self.state, rest: self.buffer.clone() })
            }
        }
    }

    #[derive(Clone, Debug)]
    pub struct MidstateError {
        state: Midstate,
        rest: Vec<u8>,
    }

    impl MidstateError {
        pub fn midstate(&self) -> Midstate {
            self.state
        }
        pub fn unprocessed_bytes(&self) -> &[u8] {
            &self.rest
        }
    }

    #[cfg(test)]
    mod tests {
        fn hx(b: &[u8]) -> String {
            b.iter().map(|x| format!("{x:02x}")).collect()
        }
        #[test]
        fn fips_vectors() {
            let abc = "ba7816bf8f01cfea414140de5dae2223b00361a396177a9cb410ff61f20015ad";
            assert_eq!(hx(&super::hash(b"abc")), abc);
            assert_eq!(hx(&super::hash_short(b"abc")), abc);
            assert_eq!(hx(&super::hash(b"")), "e3b0c44298fc1c149afbf4c8996fb92427ae41e4649b934ca495991b7852b855");
            assert_eq!(
                hx(&super::hash(b"abcdbcdecdefdefgefghfghighijhijkijkljklmklmnlmnomnopnopq")),
                "248d6a61d20638b8e5c026930c3e6039a33ce45964ff2167f6ecedd419db06c1"
            );
        }
        #[test]
        fn both_forms_agree() {
            let mut st = [1u32, 2, 3, 4, 5, 6, 7, 8];
            let mut block = [0u8; 64];
            for r in 0..500u32 {
                for (i, b) in block.iter_mut().enumerate() {
                    *b = (st[i % 8] >> (i / 8)) as u8 ^ (r as u8);
                }
                let want = super::compress_const(st, &block);
                super::compress(&mut st, &block);
                assert_eq!(st, want);
            }
        }
    }
}
