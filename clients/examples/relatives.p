% Whoever is above somebody is an ancestor, so Anna is one of Clara.
include('relatives.ax').
cnf(anna, axiom, parent(anna,bert)).
cnf(bert, axiom, parent(bert,clara)).
cnf(goal, negated_conjecture, ~ancestor(anna,clara)).
