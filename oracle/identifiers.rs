//! Document 01's names, in the shape that the given crate expects of its `identifiers` module.
//! Licences and exceptions stand in ascending order of their bytes, since the crate searches them by halving.

use crate::flags::{IS_DEPRECATED, IS_GNU, Type};
use crate::{Exception, License};

pub const VERSION: &str = "document 01";

const PLAIN: Type = 0;
const GNU: Type = IS_GNU;
const BARE_GNU: Type = IS_GNU | IS_DEPRECATED;

// Document 01 lists no full names and nothing asks for them, so the short name stands in.
const fn licence(index: usize, name: &'static str, flags: Type) -> License {
    License { name, full_name: name, index, flags }
}

const fn exception(index: usize, name: &'static str) -> Exception {
    Exception { name, index, flags: PLAIN }
}

pub const LICENSES: &[License] = &[
    licence(0, "0BSD", PLAIN),
    licence(1, "Apache-2.0", PLAIN),
    licence(2, "BSD-2-Clause", PLAIN),
    licence(3, "BSD-3-Clause", PLAIN),
    licence(4, "BSL-1.0", PLAIN),
    licence(5, "CC-BY-4.0", PLAIN),
    licence(6, "CC0-1.0", PLAIN),
    licence(7, "GPL-2.0", BARE_GNU),
    licence(8, "GPL-2.0-only", GNU),
    licence(9, "GPL-2.0-or-later", GNU),
    licence(10, "GPL-3.0", BARE_GNU),
    licence(11, "GPL-3.0-only", GNU),
    licence(12, "GPL-3.0-or-later", GNU),
    licence(13, "ISC", PLAIN),
    licence(14, "LGPL-2.1", BARE_GNU),
    licence(15, "LGPL-2.1-only", GNU),
    licence(16, "LGPL-2.1-or-later", GNU),
    licence(17, "LGPL-3.0", BARE_GNU),
    licence(18, "LGPL-3.0-only", GNU),
    licence(19, "LGPL-3.0-or-later", GNU),
    licence(20, "MIT", PLAIN),
    licence(21, "MPL-1.1", PLAIN),
    licence(22, "MPL-2.0", PLAIN),
    licence(23, "OFL-1.1", PLAIN),
    licence(24, "Unicode-3.0", PLAIN),
    licence(25, "Unlicense", PLAIN),
];

pub const EXCEPTIONS: &[Exception] = &[
    exception(0, "Bison-exception-2.2"),
    exception(1, "Classpath-exception-2.0"),
    exception(2, "Font-exception-2.0"),
    exception(3, "GCC-exception-3.1"),
    exception(4, "LLVM-exception"),
];

pub const IMPRECISE_NAMES: &[(&str, &str)] = &[
    ("apache", "Apache-2.0"),
    ("apache2", "Apache-2.0"),
    ("gpl-3.0", "GPL-3.0"),
    ("gplv2", "GPL-2.0"),
    ("mit", "MIT"),
];
