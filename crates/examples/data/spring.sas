proc factex;
factors Heat Time Transfer Hold Quench;
size design=16;
model estimate=(Heat Time Transfer Hold Quench Heat*Quench Time*Quench Transfer*Quench Hold*Quench)
      nonnegligible=(Heat|Time|Transfer|Hold@2);
examine design;
run;
