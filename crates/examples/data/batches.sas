proc factex;
factors Temperature Pressure Formaldehyde Stirring;
size design=16;
model resolution=maximum;
blocks nblocks=4;
examine blocked;
run;
