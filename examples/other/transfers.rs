// Transfers between accounts, in Rust: epoch e moves an amount from one account to another.
// Epochs that share an account conflict; the eight accounts lie in two lines.
// transfers.s is its assembly, by rustc 1.63 with the library core of its target:
// rustc --edition 2021 --target riscv32i-unknown-none-elf -O -C panic=abort --crate-type lib --emit asm transfers.rs
#![no_std]

struct Transfer {
    from: u8,
    to: u8,
    amount: u16,
}

const fn transfer(from: u8, to: u8, amount: u16) -> Transfer {
    Transfer { from, to, amount }
}

static TRANSFERS: [Transfer; 8] = [
    transfer(0, 1, 30),
    transfer(2, 3, 5),
    transfer(4, 5, 12),
    transfer(1, 6, 25),
    transfer(7, 2, 40),
    transfer(5, 0, 7),
    transfer(3, 4, 100),
    transfer(6, 7, 60),
];

#[repr(align(16))]
pub struct Accounts([u32; 8]);

#[no_mangle]
pub static mut accounts: Accounts = Accounts([100, 100, 100, 100, 100, 100, 100, 100]);

#[no_mangle]
pub unsafe extern "C" fn body(epoch: u32) {
    let Transfer { from, to, amount } = &TRANSFERS[(epoch % 8) as usize];
    accounts.0[(*from % 8) as usize] -= *amount as u32;
    accounts.0[(*to % 8) as usize] += *amount as u32;
}
