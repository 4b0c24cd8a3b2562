//! The same migration in plain Rust: what `make bench` holds the program against. It makes the same promises about bytes (each
//! file read twice, 8 KiB at a time, the second reading compared), proves none of them, and handles the good case alone: any
//! fault is a panic. Rust's standard library is all that it stands on, so that `rustc -O` builds it anywhere; with the feature
//! `sha2` its digests are those of the crate of that name, which the bench asks for where it finds it.
//! `peer SOURCE DEST`; the log goes to standard output.
use std::collections::{BTreeMap, HashMap};
use std::fs::{self, File};
use std::io::{self, Read, Write};
use std::path::{Path, PathBuf};

// The digests of FIPS 180-4. The constants of SHA-256 are the upper halves of those of SHA-512.
#[cfg(not(feature = "sha2"))]
const FIRST: [u64; 8] = [
    0x6a09_e667_f3bc_c908, 0xbb67_ae85_84ca_a73b, 0x3c6e_f372_fe94_f82b, 0xa54f_f53a_5f1d_36f1,
    0x510e_527f_ade6_82d1, 0x9b05_688c_2b3e_6c1f, 0x1f83_d9ab_fb41_bd6b, 0x5be0_cd19_137e_2179,
];
#[cfg(not(feature = "sha2"))]
const ROUNDS: [u64; 80] = [
    0x428a_2f98_d728_ae22, 0x7137_4491_23ef_65cd, 0xb5c0_fbcf_ec4d_3b2f, 0xe9b5_dba5_8189_dbbc,
    0x3956_c25b_f348_b538, 0x59f1_11f1_b605_d019, 0x923f_82a4_af19_4f9b, 0xab1c_5ed5_da6d_8118,
    0xd807_aa98_a303_0242, 0x1283_5b01_4570_6fbe, 0x2431_85be_4ee4_b28c, 0x550c_7dc3_d5ff_b4e2,
    0x72be_5d74_f27b_896f, 0x80de_b1fe_3b16_96b1, 0x9bdc_06a7_25c7_1235, 0xc19b_f174_cf69_2694,
    0xe49b_69c1_9ef1_4ad2, 0xefbe_4786_384f_25e3, 0x0fc1_9dc6_8b8c_d5b5, 0x240c_a1cc_77ac_9c65,
    0x2de9_2c6f_592b_0275, 0x4a74_84aa_6ea6_e483, 0x5cb0_a9dc_bd41_fbd4, 0x76f9_88da_8311_53b5,
    0x983e_5152_ee66_dfab, 0xa831_c66d_2db4_3210, 0xb003_27c8_98fb_213f, 0xbf59_7fc7_beef_0ee4,
    0xc6e0_0bf3_3da8_8fc2, 0xd5a7_9147_930a_a725, 0x06ca_6351_e003_826f, 0x1429_2967_0a0e_6e70,
    0x27b7_0a85_46d2_2ffc, 0x2e1b_2138_5c26_c926, 0x4d2c_6dfc_5ac4_2aed, 0x5338_0d13_9d95_b3df,
    0x650a_7354_8baf_63de, 0x766a_0abb_3c77_b2a8, 0x81c2_c92e_47ed_aee6, 0x9272_2c85_1482_353b,
    0xa2bf_e8a1_4cf1_0364, 0xa81a_664b_bc42_3001, 0xc24b_8b70_d0f8_9791, 0xc76c_51a3_0654_be30,
    0xd192_e819_d6ef_5218, 0xd699_0624_5565_a910, 0xf40e_3585_5771_202a, 0x106a_a070_32bb_d1b8,
    0x19a4_c116_b8d2_d0c8, 0x1e37_6c08_5141_ab53, 0x2748_774c_df8e_eb99, 0x34b0_bcb5_e19b_48a8,
    0x391c_0cb3_c5c9_5a63, 0x4ed8_aa4a_e341_8acb, 0x5b9c_ca4f_7763_e373, 0x682e_6ff3_d6b2_b8a3,
    0x748f_82ee_5def_b2fc, 0x78a5_636f_4317_2f60, 0x84c8_7814_a1f0_ab72, 0x8cc7_0208_1a64_39ec,
    0x90be_fffa_2363_1e28, 0xa450_6ceb_de82_bde9, 0xbef9_a3f7_b2c6_7915, 0xc671_78f2_e372_532b,
    0xca27_3ece_ea26_619c, 0xd186_b8c7_21c0_c207, 0xeada_7dd6_cde0_eb1e, 0xf57d_4f7f_ee6e_d178,
    0x06f0_67aa_7217_6fba, 0x0a63_7dc5_a2c8_98a6, 0x113f_9804_bef9_0dae, 0x1b71_0b35_131c_471b,
    0x28db_77f5_2304_7d84, 0x32ca_ab7b_40c7_2493, 0x3c9e_be0a_15c9_bebc, 0x431d_67c4_9c10_0d4c,
    0x4cc5_d4be_cb3e_42b6, 0x597f_299c_fc65_7e2a, 0x5fcb_6fab_3ad6_faec, 0x6c44_198c_4a47_5817,
];

#[cfg(feature = "sha2")]
macro_rules! hasher {
    ($name:ident, $($own:tt)*) => {
        struct $name(sha2::$name);

        impl $name {
            fn new() -> Self { Self(sha2::Digest::new()) }
            fn feed(&mut self, bytes: &[u8]) { sha2::Digest::update(&mut self.0, bytes) }
            fn end(self) -> Vec<u8> { sha2::Digest::finalize(self.0).to_vec() }
        }
    };
}

#[cfg(not(feature = "sha2"))]
macro_rules! hasher {
    ($name:ident, $word:ty, $length:ty, $block:expr, $rounds:expr, $down:expr, $big0:expr, $big1:expr, $small0:expr, $small1:expr) => {
        struct $name {
            state: [$word; 8],
            block: [u8; $block],
            held: usize,
            fed: $length,
        }

        impl $name {
            fn new() -> Self {
                Self { state: FIRST.map(|x| (x >> $down) as $word), block: [0; $block], held: 0, fed: 0 }
            }
            fn feed(&mut self, mut bytes: &[u8]) {
                self.fed += bytes.len() as $length;
                if self.held > 0 {
                    let taken = bytes.len().min($block - self.held);
                    self.block[self.held..self.held + taken].copy_from_slice(&bytes[..taken]);
                    self.held += taken;
                    bytes = &bytes[taken..];
                    if self.held < $block { return }
                    let block = self.block;
                    self.take(&block);
                    self.held = 0;
                }
                let mut blocks = bytes.chunks_exact($block);
                for block in &mut blocks { self.take(block.try_into().unwrap()) }
                let rest = blocks.remainder();
                self.block[..rest.len()].copy_from_slice(rest);
                self.held = rest.len();
            }
            fn end(mut self) -> Vec<u8> {
                let bits = self.fed * 8;
                let width = std::mem::size_of::<$length>();
                let mut tail = vec![0x80];
                while (self.held + tail.len() + width) % $block != 0 { tail.push(0) }
                tail.extend(bits.to_be_bytes());
                self.feed(&tail);
                self.state.iter().flat_map(|x| x.to_be_bytes()).collect()
            }
            fn take(&mut self, block: &[u8; $block]) {
                let mut w: [$word; $rounds] = [0; $rounds];
                for (word, bytes) in w.iter_mut().zip(block.chunks_exact(std::mem::size_of::<$word>())) {
                    *word = <$word>::from_be_bytes(bytes.try_into().unwrap());
                }
                for i in 16..$rounds {
                    let (x, y) = (w[i - 15], w[i - 2]);
                    let s0 = x.rotate_right($small0.0) ^ x.rotate_right($small0.1) ^ (x >> $small0.2);
                    let s1 = y.rotate_right($small1.0) ^ y.rotate_right($small1.1) ^ (y >> $small1.2);
                    w[i] = w[i - 16].wrapping_add(s0).wrapping_add(w[i - 7]).wrapping_add(s1);
                }
                let [mut a, mut b, mut c, mut d, mut e, mut f, mut g, mut h] = self.state;
                for i in 0..$rounds {
                    let s1 = e.rotate_right($big1.0) ^ e.rotate_right($big1.1) ^ e.rotate_right($big1.2);
                    let chosen = (e & f) ^ (!e & g);
                    let x = h.wrapping_add(s1).wrapping_add(chosen).wrapping_add((ROUNDS[i] >> $down) as $word).wrapping_add(w[i]);
                    let s0 = a.rotate_right($big0.0) ^ a.rotate_right($big0.1) ^ a.rotate_right($big0.2);
                    let y = s0.wrapping_add((a & b) ^ (a & c) ^ (b & c));
                    (h, g, f, e, d, c, b, a) = (g, f, e, d.wrapping_add(x), c, b, a, x.wrapping_add(y));
                }
                for (old, new) in self.state.iter_mut().zip([a, b, c, d, e, f, g, h]) { *old = old.wrapping_add(new) }
            }
        }
    };
}
hasher!(Sha512, u64, u128, 128, 80, 0, (28, 34, 39), (14, 18, 41), (1, 8, 7), (19, 61, 6));
hasher!(Sha256, u32, u64, 64, 64, 32, (2, 13, 22), (6, 11, 25), (7, 18, 3), (17, 19, 10));

fn sha512(bytes: &[u8]) -> String {
    let mut hasher = Sha512::new();
    hasher.feed(bytes);
    hex(&hasher.end())
}

fn sha256(bytes: &[u8]) -> String {
    let mut hasher = Sha256::new();
    hasher.feed(bytes);
    hex(&hasher.end())
}

fn hex(b: &[u8]) -> String {
    b.iter().map(|x| format!("{x:02x}")).collect()
}

fn esc(s: &str) -> String {
    let mut o = String::from("\"");
    for c in s.chars() {
        match c {
            '"' => o.push_str("\\\""),
            '\\' => o.push_str("\\\\"),
            '\n' => o.push_str("\\n"),
            '\r' => o.push_str("\\r"),
            '\t' => o.push_str("\\t"),
            '\u{8}' => o.push_str("\\b"),
            '\u{c}' => o.push_str("\\f"),
            c if (c as u32) < 32 => o.push_str(&format!("\\u{:04x}", c as u32)),
            c => o.push(c),
        }
    }
    o.push('"');
    o
}

// The bytes that a cleaned text reads, if it reads any.
fn unclean(t: &[u8]) -> Option<Vec<u8>> {
    let (mut o, mut i) = (Vec::new(), 0);
    while i < t.len() {
        match t[i] {
            b'^' => {
                let h = std::str::from_utf8(t.get(i + 1..i + 3)?).ok()?;
                o.push(u8::from_str_radix(h, 16).ok()?);
                i += 3;
                continue;
            }
            b'=' => o.push(b'/'),
            b'+' => o.push(b':'),
            b',' => o.push(b'.'),
            c if (0x21..=0x7e).contains(&c) => o.push(c),
            _ => return None,
        }
        i += 1;
    }
    Some(o)
}

fn place(id: &str) -> PathBuf {
    let h = sha256(id.as_bytes());
    let mut e = String::new();
    for b in id.bytes() {
        if b.is_ascii_alphanumeric() || b == b'-' || b == b'_' { e.push(b as char) } else { e.push_str(&format!("%{b:02x}")) }
    }
    if e.len() > 100 {
        e.truncate(100);
        e.push('-');
        e.push_str(&h);
    }
    [&h[0..3], &h[3..6], &h[6..9], &e].iter().collect()
}

fn sorted(p: &Path) -> io::Result<Vec<(String, fs::FileType)>> {
    let mut v = Vec::new();
    for e in fs::read_dir(p)? {
        let e = e?;
        v.push((e.file_name().into_string().unwrap(), e.file_type()?));
    }
    v.sort_by(|a, b| a.0.cmp(&b.0));
    Ok(v)
}

struct Run<W: Write> { dst: PathBuf, out: W, done: u64, present: u64, skip: u64 }

fn pump(f: &mut File, mut to: Option<&mut File>) -> io::Result<(String, u64)> {
    let (mut h, mut n, mut b) = (Sha512::new(), 0, [0u8; 8192]);
    loop {
        let k = f.read(&mut b)?;
        if k == 0 { break }
        h.feed(&b[..k]);
        if let Some(t) = to.as_mut() { t.write_all(&b[..k])? }
        n += k as u64;
    }
    Ok((hex(&h.end()), n))
}

impl<W: Write> Run<W> {
    fn files(&self, dir: &Path, rel: &str, rows: &mut Vec<(String, String, u64)>, empty: &mut u64) -> io::Result<()> {
        let l = sorted(dir)?;
        if l.is_empty() { *empty += 1 }
        for (n, t) in l {
            let r = if rel.is_empty() { n.clone() } else { format!("{rel}/{n}") };
            if t.is_dir() { self.files(&dir.join(&n), &r, rows, empty)? }
            else { let (d, k) = pump(&mut File::open(dir.join(&n))?, None)?; rows.push((r, d, k)) }
        }
        Ok(())
    }
    fn object(&mut self, dir: &Path, at: &str, id: &str) -> io::Result<()> {
        let to = place(id);
        let full = self.dst.join("ocfl").join(&to);
        if fs::symlink_metadata(&full).is_ok() {
            self.present += 1;
            return writeln!(self.out, "{{\"as\":\"present\",\"at\":{},\"id\":{},\"to\":{}}}", esc(at), esc(id), esc(to.to_str().unwrap()));
        }
        let (mut rows, mut empty) = (Vec::new(), 0);
        self.files(dir, "", &mut rows, &mut empty)?;
        let st = self.dst.join("staging");
        fs::create_dir(&st)?;
        fs::write(st.join("0=ocfl_object_1.1"), "ocfl_object_1.1\n")?;
        fs::create_dir(st.join("v1"))?;
        let mut first: HashMap<&str, &str> = HashMap::new();
        let mut state: BTreeMap<&str, Vec<&str>> = BTreeMap::new();
        for (p, d, n) in &rows {
            state.entry(d).or_default().push(p);
            if first.contains_key(d.as_str()) { continue }
            first.insert(d, p);
            let q = st.join("v1/content").join(p);
            fs::create_dir_all(q.parent().unwrap())?;
            let (e, k) = pump(&mut File::open(dir.join(p))?, Some(&mut File::options().write(true).create_new(true).open(&q)?))?;
            assert!(e == *d && k == *n);
        }
        let man: Vec<String> = state.keys().map(|d| format!("\"{d}\":[{}]", esc(&format!("v1/content/{}", first[d])))).collect();
        let sta: Vec<String> = state.iter().map(|(d, ps)| format!("\"{d}\":[{}]", ps.iter().map(|p| esc(p)).collect::<Vec<_>>().join(","))).collect();
        let inv = format!("{{\"digestAlgorithm\":\"sha512\",\"head\":\"v1\",\"id\":{},\"manifest\":{{{}}},\"type\":\"https://ocfl.io/1.1/spec/#inventory\",\"versions\":{{\"v1\":{{\"created\":\"2024-05-01T12:00:00Z\",\"message\":\"Migrated from Pairtree\",\"state\":{{{}}},\"user\":{{\"name\":\"Ada\"}}}}}}}}", esc(id), man.join(","), sta.join(","));
        let h = sha512(inv.as_bytes());
        let side = format!("{h} inventory.json\n");
        for d in ["v1", "."] {
            fs::write(st.join(d).join("inventory.json"), &inv)?;
            fs::write(st.join(d).join("inventory.json.sha512"), &side)?;
        }
        fs::create_dir_all(full.parent().unwrap())?;
        fs::rename(&st, &full)?;
        self.done += 1;
        writeln!(self.out, "{{\"as\":\"done\",\"at\":{},\"bytes\":{},\"empty\":{empty},\"files\":{},\"id\":{},\"to\":{}}}", esc(at), rows.iter().map(|r| r.2).sum::<u64>(), rows.len(), esc(id), esc(to.to_str().unwrap()))
    }
    fn walk(&mut self, dir: &Path, at: &str, joined: &str, last: bool, prefix: &str) -> io::Result<()> {
        let l = sorted(dir)?;
        let (short, non): (Vec<_>, Vec<_>) = l.iter().partition(|(n, t)| t.is_dir() && n.len() <= 2);
        let cause = if joined.is_empty() { (!non.is_empty()).then_some("root") }
            else if non.is_empty() { short.is_empty().then_some("empty") }
            else if non.len() > 1 || !non[0].1.is_dir() { Some("split") }
            else {
                match unclean(joined.as_bytes()).map(String::from_utf8) {
                    Some(Ok(s)) => {
                        self.object(&dir.join(&non[0].0), &format!("{at}/{}", non[0].0), &format!("{prefix}{s}"))?;
                        None
                    }
                    Some(Err(_)) => Some("utf8"),
                    None => Some("name"),
                }
            };
        if let Some(c) = cause {
            self.skip += 1;
            writeln!(self.out, "{{\"as\":\"skip\",\"at\":{},\"cause\":\"{c}\"}}", esc(at))?;
        }
        for (n, _) in short {
            let a = if at.is_empty() { n.clone() } else { format!("{at}/{n}") };
            if last {
                self.skip += 1;
                writeln!(self.out, "{{\"as\":\"skip\",\"at\":{},\"cause\":\"past\"}}", esc(&a))?;
            } else {
                self.walk(&dir.join(n), &a, &format!("{joined}{n}"), n.len() == 1, prefix)?;
            }
        }
        Ok(())
    }
}

fn main() -> io::Result<()> {
    let a: Vec<String> = std::env::args().collect();
    let (src, dst) = (PathBuf::from(&a[1]), PathBuf::from(&a[2]));
    let prefix = fs::read_to_string(src.join("pairtree_prefix")).unwrap_or_default();
    let ext = dst.join("ocfl/extensions/0003-hash-and-id-n-tuple-storage-layout");
    if !dst.join("ocfl").exists() {
        fs::create_dir_all(&ext)?;
        fs::write(ext.join("config.json"), "{\"digestAlgorithm\":\"sha256\",\"extensionName\":\"0003-hash-and-id-n-tuple-storage-layout\",\"numberOfTuples\":3,\"tupleSize\":3}")?;
        fs::write(dst.join("ocfl/ocfl_layout.json"), "{\"description\":\"SHA-256 of the identifier in tuples, then the encoded identifier\",\"extension\":\"0003-hash-and-id-n-tuple-storage-layout\"}")?;
        fs::write(dst.join("ocfl/0=ocfl_1.1"), "ocfl_1.1\n")?;
    }
    let mut r = Run { dst, out: io::stdout().lock(), done: 0, present: 0, skip: 0 };
    r.walk(&src.join("pairtree_root"), "", "", false, prefix.trim_end_matches(['\r', '\n']))?;
    writeln!(r.out, "{{\"as\":\"end\",\"done\":{},\"present\":{},\"skip\":{}}}", r.done, r.present, r.skip)
}
