% There is no barber who shaves just those who don't shave themselves.
fof(goal, conjecture, ~?[B]: ![X]: (shaves(B,X) <=> ~shaves(X,X))).
