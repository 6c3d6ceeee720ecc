proc factex;
factors Temperature Pressure Formaldehyde Stirring;
size design=8;
model resolution=maximum;
examine aliasing;
output out=Rate randomize(7) novalran;
run;
