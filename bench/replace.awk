# Puts a table in the place of the one that a page has; the page has one whose head begins so.
/^\| call \| given \|/ { print table; skipping = 1 }
skipping && !/^\|/ { skipping = 0 }
!skipping { print }
