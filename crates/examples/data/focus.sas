proc factex;
factors Acuity Distance Shape Subject Density TargetSize Light;
size design=8;
model resolution=3;
foldover;
run;
