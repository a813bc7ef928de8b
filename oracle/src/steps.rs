//! Document 01's logarithm and powers, step by step; nothing here is fused or reordered.

const LN2_HI: f64 = f64::from_bits(0x3FE6_2E42_FEE0_0000);
const LN2_LO: f64 = f64::from_bits(0x3DEA_39EF_3579_3C76);
const L1: f64 = f64::from_bits(0x3FE5_5555_5555_5593);
const L2: f64 = f64::from_bits(0x3FD9_9999_9997_FA04);
const L3: f64 = f64::from_bits(0x3FD2_4924_9422_9359);
const L4: f64 = f64::from_bits(0x3FCC_71C5_1D8E_78AF);
const L5: f64 = f64::from_bits(0x3FC7_4664_96CB_03DE);
const L6: f64 = f64::from_bits(0x3FC3_9A09_D078_C69F);
const L7: f64 = f64::from_bits(0x3FC2_F112_DF3E_5244);

/// The natural logarithm of a positive, normal, finite number.
pub fn ln(x: f64) -> f64 {
    let (k, reduced) = reduce(x);
    let f = reduced - 1.0;
    let q = (0.5 * f) * f;
    let s = f / (2.0 + f);
    let z = s * s;
    let w = z * z;
    let a = w * (L2 + w * (L4 + w * L6));
    let b = z * (L1 + w * (L3 + w * (L5 + w * L7)));
    let r = b + a;
    s * (q + r) + k * LN2_LO - q + f + k * LN2_HI
}

/// k and the reduced argument: x is reduced × 2^k, and reduced lies about 1.
pub fn reduce(x: f64) -> (f64, f64) {
    let bits = x.to_bits();
    let h = (bits >> 32) + 0x95F62;
    let k = (h >> 20) as f64 - 1023.0;
    let upper = (h & 0xF_FFFF) + 0x3FE6_A09E;
    let reduced = f64::from_bits(upper << 32 | bits & 0xFFFF_FFFF);
    (k, reduced)
}

/// `base` to the power `n`, by squaring.
pub fn powi(mut base: f64, mut n: u32) -> f64 {
    let mut answer = 1.0;
    while n != 0 {
        if n % 2 == 1 {
            answer *= base;
        }
        n /= 2;
        if n != 0 {
            base *= base;
        }
    }
    answer
}
