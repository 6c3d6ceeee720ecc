proc factex;
factors Mould Moisture Hold Cavity Boost Cycle Gate Screw;
size design=16;
model resolution=4;
examine aliasing;
run;
