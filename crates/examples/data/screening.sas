proc factex;
factors Catalyst Temp Pressure Rate Solvent Stirring Batch;
size design=16;
model resolution=4;
run;
