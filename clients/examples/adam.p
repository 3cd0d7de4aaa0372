% Everybody loves his mother, and helps whom he loves. So Adam helps somebody.
cnf(mothers, axiom, loves(X,mother(X))).
cnf(help, axiom, ~loves(X,Y) | helps(X,Y)).
cnf(nobody, negated_conjecture, ~helps(adam,Y)).
