"""Contracts that allow one answer, by laws: a mutant that breaks them would show nothing more.

Where a law says that two answers are equal, the contract has no other body, whatever the search finds.
"""

# Each public function, and the laws that say so of what it returns and of why it rejects a text.
LAWS = {
    "fmtcanon_c::byte_counts::fmtcanon_bounds": ["fmtcanon_c::laws::one_count"],
    "fmtcanon_c::canonical_texts::fmtcanon_check": ["fmtcanon_c::laws::one_check"],
    "fmtcanon_c::canonical_texts::fmtcanon_is_canonical": ["fmtcanon_c::laws::one_decision"],
    "fmtcanon_c::relations::fmtcanon_fits": ["fmtcanon_c::laws::one_relation"],
    "fmtcanon_c::relations::fmtcanon_fits_fewer": ["fmtcanon_c::laws::one_relation"],
    "fmtcanon_c::relations::fmtcanon_same": ["fmtcanon_c::laws::one_relation"],
    "fmtcanon_c::relations::fmtcanon_whole_same": ["fmtcanon_c::laws::one_relation"],
    "pf_bounds::formats::bounds": ["pf_bounds::laws::bounds_once", "pf_text::laws::refused_once"],
    "pf_posix::comparison::fits": ["pf_posix::laws::compares_once", "pf_posix::laws::refused_once"],
    "pf_posix::comparison::fits_fewer": ["pf_posix::laws::fewer_once", "pf_posix::laws::refused_once"],
    "pf_whole::needless::needless_parts": ["pf_whole::laws::needless_once"],
}

# Records that hold of one value at most, and the law that says so. No field of theirs needs a mutant.
RECORDS = {
    "AreBounds": "pf_bounds::laws::bounds_once",
    "AreNeedless": "pf_whole::laws::needless_once",
    "ComparesArgumentTypes": "pf_posix::laws::compares_once",
    "ComparesBeginning": "pf_posix::laws::fewer_once",
    "IsComparisonOf": "pf_compare::laws::one_comparison",
    "IsDifferenceOf": "pf_compare::laws::one_difference",
    "IsWholeCanonicalFor": "pf_whole::laws::one_whole_canonical",
    "IsWholeComparisonOf": "pf_whole::laws::one_verdict",
}

REASONS = {function: f"by {' and '.join(laws)} it has one answer" for function, laws in LAWS.items()}
