proc factex;
factors Pressure Flat Crimp Lot / nlev=3;
size design=27;
model resolution=4;
examine aliasing;
run;
