fn r(h: Hand, s: usize) -> u64 { h.word() >> (13 * s) & 0x1fff }
fn kth(all: &[u64; 4], s: usize, k: u32) -> u64 { let mut m = all[s]; let mut out = 0; for _ in 0..k { if m == 0 { break; } let b = 1u64 << m.ilog2(); out |= b; m ^= b; } out << (13 * s) }
fn run_top(all: &[u64; 4], h: &[[u64; 4]; 4], p: usize, s: usize) -> u32 { let o = all[s] & !h[p][s]; if o == 0 { all[s].count_ones() } else { (all[s] >> (o.ilog2() + 1)).count_ones() } }
fn to_hand(w: u64) -> Hand { let mut h = Hand::new(); let mut w = w; while w != 0 { h.insert(Card::from_number(w.trailing_zeros() as u8)); w &= w - 1; } h }
pub fn quick(position: &Position, target: u8, tricks_left: u8) -> Option<Finding> {
    let p = position.leader() as usize; let (l, pa, rr) = ((p + 1) & 3, (p + 2) & 3, (p + 3) & 3);
    let places = [Place::North, Place::East, Place::South, Place::West];
    let mut h = [[0u64; 4]; 4]; let mut all = [0u64; 4];
    for q in 0..4 { for s in 0..4 { h[q][s] = r(position.hand(places[q]), s); all[s] |= h[q][s]; } }
    let len = |q: usize, s: usize| h[q][s].count_ones() as i32;
    let side = places[p].side();
    let need = tricks_wanted(side, target, tricks_left) as i32; let n = tricks_left as i32;
    let tr = match position.strain().trump() { Some(t) if all[t as usize] != 0 => t as usize, _ => 4 };
    let w = |s: usize| -> usize { if all[s] == 0 { 4 } else { let b = 1u64 << all[s].ilog2(); (0..4).find(|q| h[*q][s] & b != 0).unwrap() } };
    let mut left = need; let mut k0 = 0u64;
    if tr == 4 {
        if !crate::OPT_NT { return None; }
        for s in 0..4 { let c = len(p, s); if c > 0 && c == all[s].count_ones() as i32 { left -= c; } }
        if left <= 0 { return Some(answer(side, Hand::new())); }
        for s in 0..4 {
            let c = len(p, s); if w(s) != p || c == all[s].count_ones() as i32 { continue; }
            let mut k = run_top(&all, &h, p, s) as i32; let longest = len(l, s).max(len(rr, s)).max(len(pa, s));
            let mut q; if k >= longest { q = c; k = longest; } else { q = k; }
            if q > left { q = left; } k = k.min(q);
            k0 |= kth(&all, s, k as u32); left -= q; if left <= 0 { return Some(answer(side, to_hand(k0))); }
        }
        if let Some(entry) = (0..4).find(|s| w(*s) == pa && len(p, *s) > 0) {
            let own = need - left; let mut w2 = 0; let mut k1 = k0; let mut l2 = left;
            for s in 0..4 { if l2 <= 0 { break; } if w(s) != pa { continue; } let k = run_top(&all, &h, pa, s) as i32; let q = k.min(l2); k1 |= kth(&all, s, q as u32); w2 += q; l2 -= q; }
            k1 |= kth(&all, entry, 1);
            if l2 <= 0 && own + w2 <= n { return Some(answer(side, to_hand(k1))); }
        }
        return None;
    }
    if !crate::OPT_TR { return None; }
    let (lt, rt) = (len(l, tr), len(rr, tr)); let (mut tl, mut trr) = (lt > 0, rt > 0); let mut side_n = 0; let mut lim = 99;
    if w(tr) == p {
        let k = run_top(&all, &h, p, tr) as i32; let u = k.min(left);
        if all[tr].count_ones() as i32 > len(p, tr) { k0 |= kth(&all, tr, u as u32); }
        left -= u; if left <= 0 { return Some(answer(side, to_hand(k0))); }
        tl = lt > k; trr = rt > k;
        if !tl && !trr { let (mine, par) = (len(p, tr), len(pa, tr)); if mine > k && par <= k { left -= mine - k; if left <= 0 { return Some(answer(side, to_hand(k0))); } } }
    }
    if (tl || trr) && len(pa, tr) > 0 { lim = n - len(pa, tr) + 1; }
    let drawn = !tl && !trr;
    for s in 0..4 {
        let c = if s == tr { 0 } else { len(p, s) }; if c == 0 { continue; }
        let cnt = all[s].count_ones() as i32; let mut q; let mut k = 0;
        if c == cnt { if !drawn { continue; } q = c; } else {
            if w(s) != p { continue; }
            k = run_top(&all, &h, p, s) as i32; let longest = len(l, s).max(len(rr, s)).max(len(pa, s));
            if drawn && k >= longest { q = c; k = longest; } else { q = k; if tl { q = q.min(len(l, s)); } if trr { q = q.min(len(rr, s)); } k = q; }
        }
        if !drawn && side_n + q > lim { q = lim - side_n; }
        if q > left { q = left; }
        k = k.min(q); if q <= 0 { continue; }
        if k > 0 { k0 |= kth(&all, s, k as u32); }
        side_n += q; left -= q; if left <= 0 { return Some(answer(side, to_hand(k0))); }
    }
    None
}
