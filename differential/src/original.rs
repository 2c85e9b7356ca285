//! The original, documents 000 and 001, as build.rs edits them: with document 01's stand-ins, and
//! without what document 01 leaves out.

/// Document 000.
#[allow(dead_code, clippy::all)]
pub mod bezier {
    include!(concat!(env!("OUT_DIR"), "/bezier.rs"));
}

/// Document 000 again, with notes of the branches that are taken; nothing is compared with it.
#[allow(dead_code, clippy::all)]
pub mod counted {
    include!(concat!(env!("OUT_DIR"), "/counted.rs"));
}

/// Document 000 again, telling at which anchors it cut; its path is compared with the first one's.
#[allow(dead_code, clippy::all)]
pub mod placed {
    include!(concat!(env!("OUT_DIR"), "/placed.rs"));
}

/// Document 001.
#[allow(dead_code, clippy::all)]
pub mod geom {
    include!(concat!(env!("OUT_DIR"), "/geom.rs"));
}
