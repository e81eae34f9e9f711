//! Images of loops. Only well-formed texts of version 1 or 2 are read here.
pub struct Image {
    pub version: u32,
    pub size: usize,
    pub code: usize,
    pub epochs: u32,
    pub limit: u64,
    pub exit: bool,
    pub regs: [u32; 32],
    pub bytes: Vec<u8>,
}

fn bytes_of(digits: &str) -> impl Iterator<Item = u8> + '_ {
    (0..digits.len()).step_by(2).map(|at| u8::from_str_radix(&digits[at..at + 2], 16).unwrap())
}

impl Image {
    pub fn read(text: &str) -> Image {
        let mut image =
            Image { version: 1, size: 0, code: 0, epochs: 0, limit: 0, exit: false, regs: [0; 32], bytes: Vec::new() };
        for line in text.lines().filter(|line| !line.is_empty() && !line.starts_with('#')) {
            let words: Vec<&str> = line.split(' ').collect();
            match words[0] {
                "version" => image.version = words[1].parse().unwrap(),
                "size" => {
                    image.size = words[1].parse().unwrap();
                    image.bytes = vec![0; image.size];
                }
                "epochs" => image.epochs = words[1].parse().unwrap(),
                "limit" => image.limit = words[1].parse().unwrap(),
                "exit" => image.exit = true,
                "code" => {
                    image.code = words[1].len() / 2;
                    image.put(0, words[1]);
                }
                "reg" => image.regs[words[1].parse::<usize>().unwrap()] = u32::from_str_radix(words[2], 16).unwrap(),
                "at" => image.put(usize::from_str_radix(words[1], 16).unwrap(), words[2]),
                other => panic!("no such line: {other}"),
            }
        }
        image
    }

    fn put(&mut self, addr: usize, digits: &str) {
        for (byte, given) in self.bytes[addr..].iter_mut().zip(bytes_of(digits)) {
            *byte = given;
        }
    }

    pub fn free_entries(&self) -> usize {
        if self.version == 1 { 16 } else { 32 }
    }
}
