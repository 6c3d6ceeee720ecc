proc factex;
factors Temperature Pressure Formaldehyde Stirring;
size design=16;
model resolution=5;
blocks nblocks=maximum;
examine design;
run;
