//! Request files: one request record, then what is presented: certificates, then delegations.

use crate::acl::TokenParameters;
use crate::blobfile::{BlobFile, BLOBFILE_BIT, BLOBFILE_FLAG};
use crate::record::{
    check_length, malformed_unless, part_if, push_up_to, records, Hash, Record, Refusal,
};

/// "A request 50 records": the request itself, its kind 15 record, 32 certificates and 16
/// delegations.
pub const MOST_REQUEST_RECORDS: usize = 50;
pub const MOST_CERTIFICATES: usize = 32;
pub const MOST_DELEGATIONS: usize = 16;
const LAST_PERMISSION: u8 = 15;

pub const REDUCE_ACL: u8 = 2;
pub const EXPAND_ACL: u8 = 12;

#[derive(Clone, Debug, PartialEq)]
pub struct Request {
    pub asked: Asked,
    pub time: u64,
    /// Where a blob is to be stored; without it the blob is returned to the host.
    pub blobfile: Option<BlobFile>,
}

#[derive(Clone, Debug, PartialEq)]
pub enum Asked {
    /// Use of one of the sixteen permissions.
    Use(u8),
    /// A working blob; without a token it is a direct one.
    Blob {
        module_key: Hash,
        token: Option<Token>,
    },
    /// A recovery blob.
    Recovery { key: Hash, mechanism: u16 },
}

#[derive(Clone, Copy, Debug, PartialEq)]
pub struct Token {
    pub hash: Hash,
    pub parameters: TokenParameters,
}

#[derive(Clone, Copy, Debug, PartialEq)]
pub struct Certificate {
    pub key: Hash,
    pub mechanism: u16,
}

/// From one key to another, for the permissions whose bits the mask holds.
#[derive(Clone, Copy, Debug, PartialEq)]
pub struct Delegation {
    pub from: Hash,
    pub to: Hash,
    pub mask: u16,
}

/// What is presented with a request.
#[derive(Clone, Debug, Default, PartialEq)]
pub struct Presented {
    pub certificates: Vec<Certificate>,
    pub delegations: Vec<Delegation>,
}

/// Refusal 1 for a request file.
pub fn check_request_length(file: &[u8]) -> Result<(), Refusal> {
    check_length(file, MOST_REQUEST_RECORDS)
}

/// Reads a request file. A replacement names the one use it takes.
pub fn read_request(file: &[u8], only_use: Option<u8>) -> Result<(Request, Presented), Refusal> {
    let mut reader = RequestReader::taking(only_use);
    for record in records(file) {
        reader.add(record)?;
    }
    reader.end()
}

/// Takes a request file's records one by one, whether they come from a file or from a text.
pub struct RequestReader {
    only_use: Option<u8>,
    request: Option<Request>,
    /// Whether the request's flag 6 says that a kind 15 record comes next.
    blobfile_due: bool,
    presented: Presented,
}

impl RequestReader {
    pub fn taking(only_use: Option<u8>) -> RequestReader {
        RequestReader {
            only_use,
            request: None,
            blobfile_due: false,
            presented: Presented::default(),
        }
    }

    pub fn add(&mut self, record: Record) -> Result<(), Refusal> {
        match &mut self.request {
            None => self.add_request(record),
            // "Requests of kinds 7 and 8 get flag 6 and a kind 15 record next".
            Some(request) if self.blobfile_due => {
                request.blobfile = Some(BlobFile::read_asked(record)?);
                self.blobfile_due = false;
                Ok(())
            }
            Some(_) => self.presented.add(record),
        }
    }

    /// A replacement refuses "any other request with 2": it is out of place at that record, before
    /// what is presented is looked at.
    fn add_request(&mut self, record: Record) -> Result<(), Refusal> {
        let request = read_request_record(record)?;
        if let Some(permission) = self.only_use {
            malformed_unless(request.asked == Asked::Use(permission))?;
        }
        self.blobfile_due = record.flag(BLOBFILE_FLAG);
        self.request = Some(request);
        Ok(())
    }

    /// "A missing request record [...] gives 2", and so does a missing kind 15 record.
    pub fn end(self) -> Result<(Request, Presented), Refusal> {
        malformed_unless(!self.blobfile_due)?;
        Ok((self.request.ok_or(Refusal::Malformed)?, self.presented))
    }
}

impl Presented {
    /// Delegations stand "after the certificates"; "a seventeenth gives 3".
    fn add(&mut self, record: Record) -> Result<(), Refusal> {
        match record.kind() {
            9 => {
                let certificate = read_certificate(record)?;
                malformed_unless(self.delegations.is_empty())?;
                push_up_to(&mut self.certificates, certificate, MOST_CERTIFICATES)
            }
            14 => {
                let delegation = read_delegation(record)?;
                push_up_to(&mut self.delegations, delegation, MOST_DELEGATIONS)
            }
            _ => Err(Refusal::Malformed),
        }
    }
}

/// "Requests, each with its time in 56-63."
fn read_request_record(record: Record) -> Result<Request, Refusal> {
    let asked = match record.kind() {
        6 => read_use(record)?,
        7 => read_blob(record)?,
        8 => read_recovery(record)?,
        _ => return Err(Refusal::Malformed),
    };
    Ok(Request {
        asked,
        time: record.number64(56),
        blobfile: None,
    })
}

/// "6 use, byte 4 permission 0-15".
fn read_use(record: Record) -> Result<Asked, Refusal> {
    record.check_zeros(0, &[(4, 4), (56, 63)])?;
    malformed_unless(record.byte(4) <= LAST_PERMISSION)?;
    Ok(Asked::Use(record.byte(4)))
}

/// "7 blob, flag 0 token used, 4-23 module key hash, 24-43 token hash, 44-51 token parameters".
fn read_blob(record: Record) -> Result<Asked, Refusal> {
    let token_used = record.flag(0);
    record.check_zeros(
        0b1 | BLOBFILE_BIT,
        &[(4, 23), part_if(token_used, (24, 51)), (56, 63)],
    )?;
    let token = if token_used {
        Some(Token {
            hash: record.hash(24),
            parameters: TokenParameters::read(record, 44)?,
        })
    } else {
        None
    };
    Ok(Asked::Blob {
        module_key: record.hash(4),
        token,
    })
}

/// "8 recovery blob, 4-23 key hash, 24-25 mechanism, not zero."
fn read_recovery(record: Record) -> Result<Asked, Refusal> {
    record.check_zeros(BLOBFILE_BIT, &[(4, 23), (24, 25), (56, 63)])?;
    let mechanism = record.number16(24);
    malformed_unless(mechanism != 0)?;
    Ok(Asked::Recovery {
        key: record.hash(4),
        mechanism,
    })
}

/// "9 presented certificate: 4-23 key hash, 24-25 mechanism, not zero."
fn read_certificate(record: Record) -> Result<Certificate, Refusal> {
    record.check_zeros(0, &[(4, 23), (24, 25)])?;
    let mechanism = record.number16(24);
    malformed_unless(mechanism != 0)?;
    Ok(Certificate {
        key: record.hash(4),
        mechanism,
    })
}

/// "Kind 14: from-hash 4-23, to-hash 24-43, sixteen-bit permission mask 44-45".
fn read_delegation(record: Record) -> Result<Delegation, Refusal> {
    record.check_zeros(0, &[(4, 23), (24, 43), (44, 45)])?;
    Ok(Delegation {
        from: record.hash(4),
        to: record.hash(24),
        mask: record.number16(44),
    })
}

#[cfg(test)]
mod tests {
    use super::*;
    use crate::encode;

    fn certificate() -> Certificate {
        Certificate {
            key: [1; 20],
            mechanism: 65535,
        }
    }

    fn delegation() -> Delegation {
        Delegation {
            from: [1; 20],
            to: [2; 20],
            mask: 0x8001,
        }
    }

    #[test]
    fn one_certificate_or_delegation_too_many() {
        let reply = |certificates, delegations| {
            let presented = Presented {
                certificates: vec![certificate(); certificates],
                delegations: vec![delegation(); delegations],
            };
            let request = Request {
                asked: Asked::Use(4),
                time: 0,
                blobfile: None,
            };
            read_request(&encode::request(&request, &presented), None).map(|_| ())
        };
        assert_eq!(reply(32, 16), Ok(()));
        assert_eq!(reply(33, 0), Err(Refusal::TooMany));
        assert_eq!(reply(0, 17), Err(Refusal::TooMany));
    }

    #[test]
    fn certificates_come_before_delegations() {
        let certificate = encode::certificate_record(&certificate());
        let delegation = encode::delegation_record(&delegation());
        let mut sign = [0; 64];
        sign[0] = 6;
        sign[4] = 4;
        let reply = |records: &[[u8; 64]]| read_request(&records.concat(), None).map(|_| ());
        assert_eq!(reply(&[sign, certificate, delegation]), Ok(()));
        let mixed = [sign, delegation, certificate];
        assert_eq!(reply(&mixed), Err(Refusal::Malformed));
        let mut flagged = delegation;
        flagged[3] = 1;
        assert_eq!(reply(&[sign, flagged]), Err(Refusal::Malformed));
        let mut longer = delegation;
        longer[46] = 1;
        assert_eq!(reply(&[sign, longer]), Err(Refusal::Malformed));
    }

    #[test]
    fn what_is_written_is_read_back() {
        let parameters = TokenParameters {
            flags: 0,
            needed: 64,
            total: 64,
            time_limit: 0,
        };
        let token = Some(Token {
            hash: [5; 20],
            parameters,
        });
        let presented = Presented {
            certificates: vec![certificate(); 32],
            delegations: vec![delegation(); 16],
        };
        for asked in [
            Asked::Use(15),
            Asked::Blob {
                module_key: [4; 20],
                token,
            },
            Asked::Blob {
                module_key: [4; 20],
                token: None,
            },
            Asked::Recovery {
                key: [6; 20],
                mechanism: 1,
            },
        ] {
            let request = Request {
                asked,
                time: u64::MAX - 1,
                blobfile: None,
            };
            let mut requests = vec![request.clone()];
            if !matches!(request.asked, Asked::Use(_)) {
                let blobfile = Some(BlobFile {
                    devices: Some(1 << 31),
                    template: Some([7; 20]),
                });
                requests.push(Request {
                    blobfile,
                    ..request
                });
            }
            for request in requests {
                let file = encode::request(&request, &presented);
                let records = 49 + usize::from(request.blobfile.is_some());
                assert_eq!(file.len(), records * 64);
                assert_eq!(read_request(&file, None), Ok((request, presented.clone())));
            }
        }
    }

    #[test]
    fn a_blobfile_record_comes_directly_after_the_request() {
        let stored = encode::blobfile_record(&BlobFile {
            devices: Some(4),
            template: None,
        });
        let certificate = encode::certificate_record(&certificate());
        let mut recovery = [0; 64];
        recovery[0] = 8;
        recovery[25] = 1;
        let plain = recovery;
        recovery[3] = 1 << 6;
        let reply = |records: &[[u8; 64]]| read_request(&records.concat(), None).map(|_| ());
        assert_eq!(reply(&[recovery, stored, certificate]), Ok(()));
        let mut sign = [0; 64];
        sign[0] = 6;
        sign[3] = 1 << 6;
        for bad in [
            &[recovery][..],
            &[recovery, certificate, stored],
            &[recovery, stored, stored],
            &[plain, stored],
            &[sign, stored],
        ] {
            assert_eq!(reply(bad), Err(Refusal::Malformed));
        }
    }

    #[test]
    fn a_replacement_takes_only_its_own_use() {
        let file = encode::request(
            &Request {
                asked: Asked::Use(REDUCE_ACL),
                time: 0,
                blobfile: None,
            },
            &Presented::default(),
        );
        assert!(read_request(&file, Some(REDUCE_ACL)).is_ok());
        assert_eq!(
            read_request(&file, Some(EXPAND_ACL)),
            Err(Refusal::Malformed)
        );
        assert_eq!(read_request(&[], None), Err(Refusal::Malformed));
    }
}
