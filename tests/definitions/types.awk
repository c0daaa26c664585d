# Keeps of a source file its imports, its types and their models, its constants, and no function.
/^(ghost )?use / && !/check_steps/ { print; next }
/^(pub )?const .*;$/ { print; next }
/^(pub enum |pub struct |impl Model for )/ { kept = 1 }
kept && !/#\[default\]/ { print }
/^}/ || /^pub struct .*;$/ { kept = 0 }
