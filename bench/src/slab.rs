//! A slab of sites in plain Rust: first fit, with the tests that the port makes of every slab that it is lent.

/// 4,096 cells of two numbers, as their bits; and how many sites there are, then of each its number, its first cell and its cells.
#[derive(Clone)]
pub struct Plain {
    pub cells: Vec<u64>,
    pub index: [u32; 193],
}

impl Plain {
    pub fn new() -> Plain {
        Plain { cells: vec![0; 8192], index: [0; 193] }
    }

    fn sites(&self) -> usize {
        self.index[0] as usize
    }

    /// The number of site i, its first cell, its cells.
    fn site(&self, i: usize) -> (u32, usize, usize) {
        let [site, start, count] = self.index[1 + 3 * i..][..3] else { unreachable!("three numbers") };
        (site, start as usize, count as usize)
    }

    /// Which cells are taken, but for those of one site.
    fn taken(&self, except: usize) -> [bool; 4096] {
        let mut taken = [false; 4096];
        for i in (0..self.sites()).filter(|&i| i != except) {
            let (_, start, count) = self.site(i);
            taken[start..start + count].fill(true);
        }
        taken
    }

    /// At most 64 sites, no two of one number, each within the cells and apart from the others, and what no site has is 0.
    fn sound(&self) -> bool {
        let apart = |i: usize, j: usize| {
            let ((a, s, k), (b, t, l)) = (self.site(i), self.site(j));
            a != b && (s + k <= t || t + l <= s)
        };
        let fits = |i: usize| {
            let (_, start, count) = self.site(i);
            count > 0 && start + count <= 4096
        };
        if self.sites() > 64 || !(0..self.sites()).all(|i| fits(i) && (0..i).all(|j| apart(i, j))) {
            return false;
        }
        let taken = self.taken(64);
        self.cells.chunks_exact(2).zip(taken).all(|(cell, taken)| taken || (cell[0] | cell[1]) == 0)
    }

    fn find(&self, site: u32) -> Option<usize> {
        (0..self.sites()).find(|&i| self.site(i).0 == site)
    }

    /// The first run of so many free cells, those of one site among them.
    fn room(&self, except: usize, count: usize) -> Option<usize> {
        let mut run = 0;
        let whole = |taken: &bool| {
            run = if *taken { 0 } else { run + 1 };
            run == count
        };
        self.taken(except).iter().position(whole).map(|last| last + 1 - count)
    }

    fn refuses(&self, data: &[u64]) -> bool {
        !self.sound() || data.is_empty() || data.len() % 2 == 1 || data.len() > 8192
    }

    pub fn put(&mut self, site: u32, data: &[u64]) -> u32 {
        if self.refuses(data) {
            return 1;
        }
        if self.find(site).is_some() {
            return 13;
        }
        let Some(start) = self.room(64, data.len() / 2) else { return 14 };
        let n = self.sites();
        if n == 64 {
            return 15;
        }
        self.cells[2 * start..][..data.len()].copy_from_slice(data);
        self.index[1 + 3 * n..][..3].copy_from_slice(&[site, start as u32, (data.len() / 2) as u32]);
        self.index[0] += 1;
        0
    }

    pub fn drop(&mut self, site: u32) -> u32 {
        if !self.sound() {
            return 1;
        }
        let Some(i) = self.find(site) else { return 13 };
        let ((_, start, count), n) = (self.site(i), self.sites());
        self.cells[2 * start..][..2 * count].fill(0);
        self.index.copy_within(4 + 3 * i..1 + 3 * n, 1 + 3 * i);
        self.index[3 * n - 2..][..3].fill(0);
        self.index[0] -= 1;
        0
    }

    pub fn replace(&mut self, site: u32, data: &[u64]) -> u32 {
        if self.refuses(data) {
            return 1;
        }
        let Some(i) = self.find(site) else { return 13 };
        let Some(start) = self.room(i, data.len() / 2) else { return 14 };
        let (_, before, count) = self.site(i);
        self.cells[2 * before..][..2 * count].fill(0);
        self.cells[2 * start..][..data.len()].copy_from_slice(data);
        self.index[2 + 3 * i..][..2].copy_from_slice(&[start as u32, (data.len() / 2) as u32]);
        0
    }
}
