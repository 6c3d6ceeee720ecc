proc factex;
factors Pressure Temp Speed Feed;
size design=8;
model resolution=4;
run;
