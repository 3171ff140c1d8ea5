//! Document 01's plans and stacks in plain Rust: what the benchmark compares the proved library with.

use std::collections::HashSet;
use std::iter::repeat_n;

pub struct Plan<'a> {
    pub n: usize,
    pub r: usize,
    pub q: usize,
    pub m: usize,
    pub l: usize,
    pub t: usize,
    matrix: &'a [u8],
}

/// The number of patterns, P.
pub fn pattern_count(n: usize, l: usize, t: usize) -> u64 {
    let mut total = 0;
    let mut term = 1u64;
    for i in 0..=t {
        total += term;
        term = term * (n.saturating_sub(i) * l) as u64 / (i as u64 + 1);
    }
    total
}

impl<'a> Plan<'a> {
    pub fn open(body: &'a [u8]) -> Result<Plan<'a>, usize> {
        if body.len() < 6 {
            return Err(1);
        }
        let field = |i: usize| body[i] as usize;
        let (n, r, q, m, l, t) = (field(0), field(1), field(2), field(3), field(4), field(5));
        let ranges = (1..=64).contains(&n)
            && r <= 12
            && r < n
            && (2..=64).contains(&q)
            && (2..=q).contains(&m)
            && (1..m).contains(&l)
            && t <= 3
            && t <= n;
        if !ranges {
            return Err(2);
        }
        let matrix = &body[6..];
        if matrix.len() != r * (n - r) {
            return Err(3);
        }
        if matrix.iter().any(|&a| a as usize >= m) {
            return Err(4);
        }
        if pattern_count(n, l, t) > 4096 {
            return Err(5);
        }
        Ok(Plan { n, r, q, m, l, t, matrix })
    }

    fn entry(&self, k: usize, cell: usize) -> usize {
        let w = self.n - self.r;
        if cell < w {
            self.matrix[k * w + cell] as usize
        } else if cell == w + k {
            1
        } else {
            0
        }
    }

    fn residue(&self, row: &[u8], k: usize) -> usize {
        let w = self.n - self.r;
        let sum: usize = self.matrix[k * w..(k + 1) * w].iter().zip(row).map(|(&a, &x)| a as usize * x as usize).sum();
        (sum + row[w + k] as usize) % self.m
    }

    fn residues(&self, row: &[u8]) -> Vec<usize> {
        (0..self.r).map(|k| self.residue(row, k)).collect()
    }

    fn has_residues(&self, pattern: &[(usize, usize)], wanted: &[usize]) -> bool {
        wanted.iter().enumerate().all(|(k, &x)| pattern.iter().map(|&(c, g)| g * self.entry(k, c)).sum::<usize>() % self.m == x)
    }

    /// Every pattern with `left` more risen cells from `cell` on, until `visit` is satisfied.
    fn walk(&self, left: usize, cell: usize, pattern: &mut Vec<(usize, usize)>, visit: &mut impl FnMut(&[(usize, usize)]) -> bool) -> bool {
        if left == 0 {
            return visit(pattern);
        }
        for c in cell..self.n {
            for g in 1..=self.l {
                pattern.push((c, g));
                if self.walk(left - 1, c + 1, pattern, visit) {
                    return true;
                }
                pattern.pop();
            }
        }
        false
    }

    /// The first pattern, in document 01's order, that `visit` is satisfied with.
    fn first(&self, mut visit: impl FnMut(&[(usize, usize)]) -> bool) -> Option<Vec<(usize, usize)>> {
        let mut pattern = Vec::with_capacity(3);
        (0..=self.t).any(|w| self.walk(w, 0, &mut pattern, &mut visit)).then_some(pattern)
    }

    /// Whether every pattern with `left` more risen cells from `cell` on has residues not seen before. `residues` are those of the
    /// cells chosen so far, and 0 beyond the r of them.
    fn all_new(&self, left: usize, cell: usize, residues: [u8; 12], seen: &mut HashSet<[u8; 12]>) -> bool {
        if left == 0 {
            return seen.insert(residues);
        }
        for c in cell..self.n {
            let mut raised = residues;
            for _ in 0..self.l {
                for (k, x) in raised[..self.r].iter_mut().enumerate() {
                    let sum = *x as usize + self.entry(k, c);
                    *x = if sum < self.m { sum } else { sum - self.m } as u8;
                }
                if !self.all_new(left - 1, c + 1, raised, seen) {
                    return false;
                }
            }
        }
        true
    }

    /// Symbols of a message stay below this.
    fn radix(&self, cell: usize) -> u64 {
        (if cell < self.n - self.r { self.q } else { self.q / self.m }) as u64
    }

    /// The bits of each symbol.
    fn widths(&self) -> impl Iterator<Item = u32> {
        repeat_n(self.q.ilog2(), self.n - self.r).chain(repeat_n((self.q / self.m).ilog2(), self.r))
    }

    /// The bits of a message.
    fn bits(&self) -> usize {
        self.widths().sum::<u32>() as usize
    }

    /// The product of all radices, or 17 when it is above 2^63.
    fn messages(&self) -> Result<u64, usize> {
        let mut product = 1u64;
        for cell in 0..self.n {
            product = product.checked_mul(self.radix(cell)).filter(|&product| product <= 1 << 63).ok_or(17usize)?;
        }
        Ok(product)
    }

    fn leaves_codeword(&self, row: &[u8], pattern: &[(usize, usize)]) -> bool {
        let ceiling = self.m * (self.q / self.m);
        let rise = |cell: usize| pattern.iter().find(|&&(c, _)| c == cell).map_or(0, |&(_, g)| g);
        pattern.iter().all(|&(c, g)| g <= row[c] as usize)
            && (self.n - self.r..self.n).all(|c| (row[c] as usize) - rise(c) < ceiling)
    }
}

/// Accepted, or the refusal's number.
pub fn test(body: &[u8]) -> Result<(), usize> {
    let plan = Plan::open(body)?;
    let mut seen: HashSet<[u8; 12]> = HashSet::with_capacity(4096);
    if (0..=plan.t).all(|w| plan.all_new(w, 0, [0; 12], &mut seen)) {
        Ok(())
    } else {
        Err(6)
    }
}

/// The count and the number of patterns tried, or the refusal's number.
pub fn decode(body: &[u8], row: &[u8], out: &mut [u8]) -> Result<(usize, usize), usize> {
    let plan = Plan::open(body)?;
    if row.len() != plan.n || out.len() != plan.n {
        return Err(8);
    }
    if row.iter().any(|&x| x as usize >= plan.q) {
        return Err(10);
    }
    let wanted = plan.residues(row);
    let mut tried = 0;
    let found = plan.first(|pattern| {
        tried += 1;
        plan.has_residues(pattern, &wanted) && plan.leaves_codeword(row, pattern)
    });
    let pattern = found.ok_or(11usize)?;
    out.copy_from_slice(row);
    for &(c, g) in &pattern {
        out[c] -= g as u8;
    }
    Ok((pattern.len(), tried))
}

/// The message of a number, the first symbol least significant.
pub fn message_of_number(body: &[u8], value: u64, message: &mut [u8]) -> Result<(), usize> {
    let plan = Plan::open(body)?;
    if message.len() != plan.n {
        return Err(8);
    }
    if value >= plan.messages()? {
        return Err(18);
    }
    let mut rest = value;
    for (cell, symbol) in message.iter_mut().enumerate() {
        *symbol = (rest % plan.radix(cell)) as u8;
        rest /= plan.radix(cell);
    }
    Ok(())
}

/// The number of a message.
pub fn number_of_message(body: &[u8], message: &[u8]) -> Result<u64, usize> {
    let plan = Plan::open(body)?;
    if message.len() != plan.n {
        return Err(8);
    }
    plan.messages()?;
    if message.iter().enumerate().any(|(cell, &symbol)| symbol as u64 >= plan.radix(cell)) {
        return Err(9);
    }
    Ok(message.iter().enumerate().rev().fold(0, |number, (cell, &symbol)| number * plan.radix(cell) + symbol as u64))
}

fn open_packable(body: &[u8]) -> Result<Plan<'_>, usize> {
    let plan = Plan::open(body)?;
    if plan.q.is_power_of_two() && (plan.q / plan.m).is_power_of_two() {
        Ok(plan)
    } else {
        Err(14)
    }
}

/// The bytes of a packed message.
pub fn packed_bytes(body: &[u8]) -> Result<usize, usize> {
    Ok(open_packable(body)?.bits().div_ceil(8))
}

/// A message to bytes.
pub fn pack(body: &[u8], message: &[u8], bytes: &mut [u8]) -> Result<(), usize> {
    let plan = open_packable(body)?;
    if message.len() != plan.n || bytes.len() != plan.bits().div_ceil(8) {
        return Err(8);
    }
    if message.iter().zip(plan.widths()).any(|(symbol, width)| symbol >> width != 0) {
        return Err(9);
    }
    let mut symbols = message.iter().zip(plan.widths());
    let (mut held, mut count) = (0u32, 0);
    for byte in bytes {
        while count < 8 {
            let Some((&symbol, width)) = symbols.next() else { break };
            held |= (symbol as u32) << count;
            count += width;
        }
        *byte = held as u8;
        held >>= 8;
        count = count.saturating_sub(8);
    }
    Ok(())
}

/// A message from bytes.
pub fn unpack(body: &[u8], bytes: &[u8], message: &mut [u8]) -> Result<(), usize> {
    let plan = open_packable(body)?;
    let bits = plan.bits();
    if bytes.len() != bits.div_ceil(8) || message.len() != plan.n {
        return Err(8);
    }
    let leftover = 8 * bytes.len() - bits;
    if bytes.last().is_some_and(|last| (last.leading_zeros() as usize) < leftover) {
        return Err(19);
    }
    let mut rest = bytes.iter();
    let (mut held, mut count) = (0u32, 0);
    for (symbol, width) in message.iter_mut().zip(plan.widths()) {
        if count < width {
            held |= rest.next().map_or(0, |&byte| (byte as u32) << count);
            count += 8;
        }
        *symbol = (held & ((1 << width) - 1)) as u8;
        held >>= width;
        count -= width;
    }
    Ok(())
}

/// A stack's planes, each as a plan.
fn open_stack(body: &[u8]) -> Result<Vec<Plan<'_>>, usize> {
    if body.len() < 2 {
        return Err(1);
    }
    let (n, m) = (body[0] as usize, body[1] as usize);
    if !(1..=64).contains(&n) || !(1..=6).contains(&m) {
        return Err(2);
    }
    let mut rest = &body[2..];
    let mut planes = Vec::with_capacity(m);
    for _ in 0..m {
        if rest.len() < 3 {
            return Err(1);
        }
        let (c, r, t) = (rest[0] as usize, rest[1] as usize, rest[2] as usize);
        if !(2..=64).contains(&c) || r > 12 || r >= n || t > 3 || t > n {
            return Err(2);
        }
        let size = r * (n - r);
        if rest.len() < 3 + size {
            return Err(3);
        }
        let matrix = &rest[3..3 + size];
        if matrix.iter().any(|&a| a as usize >= c) {
            return Err(4);
        }
        if pattern_count(n, c - 1, t) > 4096 {
            return Err(5);
        }
        planes.push(Plan { n, r, q: c, m: c, l: c - 1, t, matrix });
        rest = &rest[3 + size..];
    }
    if !rest.is_empty() {
        return Err(3);
    }
    if planes.iter().map(|p| p.m as u64).product::<u64>() > 64 {
        return Err(7);
    }
    Ok(planes)
}

/// The count of a stack's row, or the refusal's number, with the plane of 11.
pub fn decode_stack(body: &[u8], row: &[u8], out: &mut [u8]) -> Result<usize, (usize, usize)> {
    let planes = open_stack(body).map_err(|number| (number, 0))?;
    let n = body[0] as usize;
    let q: usize = planes.iter().map(|p| p.m).product();
    if row.len() != n || out.len() != n {
        return Err((8, 0));
    }
    if row.iter().any(|&x| x as usize >= q) {
        return Err((10, 0));
    }
    let mut levels = row.to_vec();
    let mut w = 1;
    for (j, plane) in planes.iter().enumerate() {
        let digits: Vec<u8> = levels.iter().map(|&x| (x as usize / w % plane.m) as u8).collect();
        let wanted = plane.residues(&digits);
        let pattern = plane.first(|pattern| plane.has_residues(pattern, &wanted)).ok_or((11, j))?;
        for &(c, g) in &pattern {
            levels[c] = ((levels[c] as usize + q - g * w) % q) as u8;
        }
        w *= plane.m;
    }
    out.copy_from_slice(&levels);
    Ok(levels.iter().zip(row).filter(|(a, b)| a != b).count())
}
