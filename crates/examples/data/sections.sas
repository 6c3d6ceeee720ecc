proc factex;
factors Temp Time Dose Speed / nlev=3;
size design=9;
model resolution=3;
examine design aliasing;
run;
