{
    // Document 01: licence and addition are equal; the requirement's plus flag is not looked at.
    let same_licence = match (&self.inner.license, &req.license) {
        (LicenseItem::Spdx { id: own, .. }, LicenseItem::Spdx { id: asked, .. }) => own == asked,
        (LicenseItem::Other(own), LicenseItem::Other(asked)) => own == asked,
        _ => false,
    };
    same_licence && self.inner.addition == req.addition
}
