//! The lines of a listing, written; and the window in which a line is read.

/// The longest line of a recording and of a listing, with its line feed.
pub const MOST_BYTES: usize = 33;

/// The most breaths of a night.
pub const MOST_BREATHS: u32 = 65536;

/// The listing, as far as it is written.
pub struct Listing<'a> {
    pub bytes: &'a mut [u8],
    pub length: usize,
}

impl Listing<'_> {
    #[inline]
    pub fn text<const COUNT: usize>(&mut self, text: &[u8; COUNT]) {
        self.bytes[self.length..self.length + COUNT].copy_from_slice(text);
        self.length += COUNT;
    }

    #[inline]
    fn byte(&mut self, byte: u8) {
        self.text(&[byte]);
    }

    #[inline]
    fn two_digits(&mut self, number: u32) {
        self.text(&[digit(number / 10), digit(number % 10)]);
    }

    /// A number of one digit or two.
    #[inline]
    fn short(&mut self, number: u32) {
        if number < 10 {
            self.byte(digit(number));
        } else {
            self.two_digits(number);
        }
    }

    /// A number of at most five digits.
    #[inline]
    pub fn decimal(&mut self, number: u32) {
        if number < 100 {
            self.short(number);
        } else if number < 10_000 {
            self.short(number / 100);
            self.two_digits(number % 100);
        } else {
            self.byte(digit(number / 10_000));
            self.two_digits(number / 100 % 100);
            self.two_digits(number % 100);
        }
    }

    #[inline]
    fn hexadecimal(&mut self, word: u32) {
        let mut digits = [0; 8];
        for (place, digit) in digits.iter_mut().rev().enumerate() {
            *digit = b"0123456789abcdef"[(word >> (4 * place) & 15) as usize];
        }
        self.text(&digits);
    }

    /// The columns after the name of a void breath.
    #[inline]
    pub fn void(&mut self) {
        self.text(b"\t00000000\t-\t-\n");
    }

    /// The columns after the name of a word: a void one is 0, any other from 0 to 1.
    #[inline(always)]
    pub fn word(&mut self, word: u32) {
        if word == 0 {
            return self.void();
        }
        self.columns(word, word >> 16, word & 0x7fff);
    }

    /// The columns after the name: the word of n/d, its fraction and its percentage. Always in place: a night
    /// took 1.3 percent longer where this was a call.
    #[inline(always)]
    pub fn columns(&mut self, word: u32, n: u32, d: u32) {
        self.byte(b'\t');
        self.hexadecimal(word);
        self.byte(b'\t');
        self.decimal(n);
        self.byte(b'/');
        self.decimal(d);
        self.byte(b'\t');
        let tenths = thousandths(n, d);
        self.decimal(tenths / 10);
        self.text(&[b'.', digit(tenths % 10), b'\n']);
    }
}

/// The nearest whole number to 1000 n/d, at a tie the even one: up past a half, and at a half from an odd one.
#[inline]
fn thousandths(n: u32, d: u32) -> u32 {
    let (below, rest) = (1000 * n / d, 1000 * n % d);
    below + u32::from(d < 2 * rest + below % 2)
}

#[inline]
fn digit(number: u32) -> u8 {
    b'0' + number as u8
}

/// What is read at the start of some bytes.
#[inline]
pub fn in_window<T>(bytes: &[u8], read: impl Fn(&[u8; MOST_BYTES]) -> Option<T>) -> Option<T> {
    let Some(line) = bytes.first_chunk() else {
        // The last lines of a text: no byte behind it ends a number or a line.
        let mut line = [0; MOST_BYTES];
        line[..bytes.len()].copy_from_slice(bytes);
        return read(&line);
    };
    read(line)
}
