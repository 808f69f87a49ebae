{
    // Document 01: exact case, and the longest of those that begin the text.
    identifiers::IMPRECISE_NAMES
        .iter()
        .filter(|(imprecise, _)| name.starts_with(imprecise))
        .max_by_key(|(imprecise, _)| imprecise.len())
        .and_then(|(imprecise, listed)| license_id(listed).map(|id| (id, imprecise.len())))
}
