-- Tuesday evening: what was sold, and for how much.
PHASE;
SESSION;
SELECT COUNT(*), SUM(amount) FROM sale;
