//! The maker of calls' parts: a small stock of hashes, so that things often match, and numbers near
//! the edges.

use crate::acl::TokenParameters;
use crate::gate::NULL_MODULE_KEY;
use crate::ledger::Ledger;
use crate::random::Random;
use crate::record::Hash;

/// Makes the files of calls. It knows the ledger as it stands, so that maxima and times fall near
/// it.
pub struct Maker {
    pub random: Random,
    pub ledger: Ledger,
    /// The KM0 of the call being made.
    pub km0: Hash,
    /// Whether the script may load or start afresh; without that, a far time would block every
    /// later request.
    pub may_load: bool,
}

pub const ZERO_HASH: Hash = [0; 20];

/// One hash of the stock: by its family and its number in it.
pub fn stock(family: u8, number: u8) -> Hash {
    let mut hash = [family; 20];
    hash[0] = number;
    hash[19] = number.wrapping_mul(17);
    hash
}

impl Maker {
    pub fn new(seed: u64, may_load: bool) -> Maker {
        Maker {
            random: Random::new(seed),
            ledger: Ledger::fresh(),
            km0: stock(b'm', 0),
            may_load,
        }
    }

    /// The same hash but for one bit.
    pub fn near(&mut self, hash: Hash) -> Hash {
        let mut other = hash;
        other[self.random.place(20)] ^= 1 << self.random.below(8);
        other
    }

    /// A KM0 for a call of its own.
    pub fn some_km0(&mut self) -> Hash {
        let choices = [
            (80, stock(b'm', 0)),
            (8, stock(b'm', 1)),
            (9, NULL_MODULE_KEY),
            (3, ZERO_HASH),
        ];
        self.random.pick_weighted(&choices)
    }

    pub fn module_key(&mut self) -> Hash {
        let near = self.near(self.km0);
        let choices = [
            (62, self.km0),
            (12, stock(b'm', 1)),
            (6, stock(b'm', 2)),
            (14, NULL_MODULE_KEY),
            (3, ZERO_HASH),
            (3, near),
        ];
        self.random.pick_weighted(&choices)
    }

    pub fn token_hash(&mut self) -> Hash {
        self.random.pick(&[
            stock(b't', 0),
            stock(b't', 0),
            stock(b't', 1),
            stock(b't', 2),
            ZERO_HASH,
        ])
    }

    pub fn recovery_key(&mut self) -> Hash {
        self.random
            .pick(&[stock(b'r', 0), stock(b'r', 0), stock(b'r', 1), ZERO_HASH])
    }

    pub fn certifier(&mut self) -> Hash {
        self.random.pick(&[
            stock(b'c', 0),
            stock(b'c', 0),
            stock(b'c', 1),
            stock(b'c', 2),
            ZERO_HASH,
        ])
    }

    pub fn mechanism(&mut self) -> u16 {
        self.random
            .pick(&[1, 1, 2, 2, 3, 3, 4, 256, 257, 512, 65535])
    }

    /// Well-formed token parameters, often at an edge.
    pub fn token_parameters(&mut self) -> TokenParameters {
        let total = self.random.pick(&[1, 2, 3, 5, 5, 8, 63, 64]);
        let needed = match self.random.below(4) {
            0 => 1,
            1 => total,
            _ => self.random.between(1, u64::from(total)) as u8,
        };
        TokenParameters {
            flags: self.random.below(2) as u16,
            needed,
            total,
            time_limit: self.time_limit(),
        }
    }

    pub fn time_limit(&mut self) -> u32 {
        self.random
            .pick(&[0, 0, 0, 1, 2, 60, 60, 3600, 0x0100_0000, u32::MAX])
    }
}
