* A week of a ward: who works which shift. Costs are in 10 euros.
NAME staffing
ROWS
 N pay
 G staff_mon_day
 G staff_mon_night
 G staff_tue_day
 G staff_tue_night
 G staff_wed_day
 G staff_wed_night
 G staff_thu_day
 G staff_thu_night
 G staff_fri_day
 G staff_fri_night
 G staff_sat_day
 G staff_sat_night
 G staff_sun_day
 G staff_sun_night
 G nurses_mon_day
 G nurses_mon_night
 G nurses_tue_day
 G nurses_tue_night
 G nurses_wed_day
 G nurses_wed_night
 G nurses_thu_day
 G nurses_thu_night
 G nurses_fri_day
 G nurses_fri_night
 G nurses_sat_day
 G nurses_sat_night
 G nurses_sun_day
 G nurses_sun_night
 L week_senior
 L week_nurse
 L week_aide
 L week_agency
COLUMNS
 M 'MARKER' 'INTORG'
 senior_mon_day   pay 31 staff_mon_day 1
 senior_mon_day   nurses_mon_day 1 week_senior 1
 senior_mon_night pay 38 staff_mon_night 1
 senior_mon_night nurses_mon_night 1 week_senior 1
 senior_tue_day   pay 32 staff_tue_day 1
 senior_tue_day   nurses_tue_day 1 week_senior 1
 senior_tue_night pay 34 staff_tue_night 1
 senior_tue_night nurses_tue_night 1 week_senior 1
 senior_wed_day   pay 29 staff_wed_day 1
 senior_wed_day   nurses_wed_day 1 week_senior 1
 senior_wed_night pay 36 staff_wed_night 1
 senior_wed_night nurses_wed_night 1 week_senior 1
 senior_thu_day   pay 33 staff_thu_day 1
 senior_thu_day   nurses_thu_day 1 week_senior 1
 senior_thu_night pay 39 staff_thu_night 1
 senior_thu_night nurses_thu_night 1 week_senior 1
 senior_fri_day   pay 33 staff_fri_day 1
 senior_fri_day   nurses_fri_day 1 week_senior 1
 senior_fri_night pay 35 staff_fri_night 1
 senior_fri_night nurses_fri_night 1 week_senior 1
 senior_sat_day   pay 33 staff_sat_day 1
 senior_sat_day   nurses_sat_day 1 week_senior 1
 senior_sat_night pay 44 staff_sat_night 1
 senior_sat_night nurses_sat_night 1 week_senior 1
 senior_sun_day   pay 37 staff_sun_day 1
 senior_sun_day   nurses_sun_day 1 week_senior 1
 senior_sun_night pay 43 staff_sun_night 1
 senior_sun_night nurses_sun_night 1 week_senior 1
 nurse_mon_day    pay 27 staff_mon_day 1
 nurse_mon_day    nurses_mon_day 1 week_nurse 1
 nurse_mon_night  pay 31 staff_mon_night 1
 nurse_mon_night  nurses_mon_night 1 week_nurse 1
 nurse_tue_day    pay 28 staff_tue_day 1
 nurse_tue_day    nurses_tue_day 1 week_nurse 1
 nurse_tue_night  pay 28 staff_tue_night 1
 nurse_tue_night  nurses_tue_night 1 week_nurse 1
 nurse_wed_day    pay 26 staff_wed_day 1
 nurse_wed_day    nurses_wed_day 1 week_nurse 1
 nurse_wed_night  pay 33 staff_wed_night 1
 nurse_wed_night  nurses_wed_night 1 week_nurse 1
 nurse_thu_day    pay 23 staff_thu_day 1
 nurse_thu_day    nurses_thu_day 1 week_nurse 1
 nurse_thu_night  pay 28 staff_thu_night 1
 nurse_thu_night  nurses_thu_night 1 week_nurse 1
 nurse_fri_day    pay 27 staff_fri_day 1
 nurse_fri_day    nurses_fri_day 1 week_nurse 1
 nurse_fri_night  pay 29 staff_fri_night 1
 nurse_fri_night  nurses_fri_night 1 week_nurse 1
 nurse_sat_day    pay 30 staff_sat_day 1
 nurse_sat_day    nurses_sat_day 1 week_nurse 1
 nurse_sat_night  pay 37 staff_sat_night 1
 nurse_sat_night  nurses_sat_night 1 week_nurse 1
 nurse_sun_day    pay 32 staff_sun_day 1
 nurse_sun_day    nurses_sun_day 1 week_nurse 1
 nurse_sun_night  pay 41 staff_sun_night 1
 nurse_sun_night  nurses_sun_night 1 week_nurse 1
 aide_mon_day     pay 15 staff_mon_day 1
 aide_mon_day     week_aide 1
 aide_mon_night   pay 22 staff_mon_night 1
 aide_mon_night   week_aide 1
 aide_tue_day     pay 21 staff_tue_day 1
 aide_tue_day     week_aide 1
 aide_tue_night   pay 25 staff_tue_night 1
 aide_tue_night   week_aide 1
 aide_wed_day     pay 17 staff_wed_day 1
 aide_wed_day     week_aide 1
 aide_wed_night   pay 21 staff_wed_night 1
 aide_wed_night   week_aide 1
 aide_thu_day     pay 17 staff_thu_day 1
 aide_thu_day     week_aide 1
 aide_thu_night   pay 23 staff_thu_night 1
 aide_thu_night   week_aide 1
 aide_fri_day     pay 16 staff_fri_day 1
 aide_fri_day     week_aide 1
 aide_fri_night   pay 27 staff_fri_night 1
 aide_fri_night   week_aide 1
 aide_sat_day     pay 23 staff_sat_day 1
 aide_sat_day     week_aide 1
 aide_sat_night   pay 30 staff_sat_night 1
 aide_sat_night   week_aide 1
 aide_sun_day     pay 28 staff_sun_day 1
 aide_sun_day     week_aide 1
 aide_sun_night   pay 32 staff_sun_night 1
 aide_sun_night   week_aide 1
 agency_mon_day   pay 41 staff_mon_day 1
 agency_mon_day   week_agency 1
 agency_mon_night pay 50 staff_mon_night 1
 agency_mon_night week_agency 1
 agency_tue_day   pay 41 staff_tue_day 1
 agency_tue_day   week_agency 1
 agency_tue_night pay 53 staff_tue_night 1
 agency_tue_night week_agency 1
 agency_wed_day   pay 47 staff_wed_day 1
 agency_wed_day   week_agency 1
 agency_wed_night pay 49 staff_wed_night 1
 agency_wed_night week_agency 1
 agency_thu_day   pay 46 staff_thu_day 1
 agency_thu_day   week_agency 1
 agency_thu_night pay 53 staff_thu_night 1
 agency_thu_night week_agency 1
 agency_fri_day   pay 43 staff_fri_day 1
 agency_fri_day   week_agency 1
 agency_fri_night pay 48 staff_fri_night 1
 agency_fri_night week_agency 1
 agency_sat_day   pay 50 staff_sat_day 1
 agency_sat_day   week_agency 1
 agency_sat_night pay 52 staff_sat_night 1
 agency_sat_night week_agency 1
 agency_sun_day   pay 50 staff_sun_day 1
 agency_sun_day   week_agency 1
 agency_sun_night pay 55 staff_sun_night 1
 agency_sun_night week_agency 1
 M 'MARKER' 'INTEND'
RHS
 rhs staff_mon_day 8
 rhs staff_mon_night 4
 rhs staff_tue_day 8
 rhs staff_tue_night 4
 rhs staff_wed_day 7
 rhs staff_wed_night 4
 rhs staff_thu_day 7
 rhs staff_thu_night 4
 rhs staff_fri_day 8
 rhs staff_fri_night 5
 rhs staff_sat_day 6
 rhs staff_sat_night 4
 rhs staff_sun_day 5
 rhs staff_sun_night 4
 rhs nurses_mon_day 4
 rhs nurses_mon_night 2
 rhs nurses_tue_day 4
 rhs nurses_tue_night 2
 rhs nurses_wed_day 4
 rhs nurses_wed_night 2
 rhs nurses_thu_day 4
 rhs nurses_thu_night 2
 rhs nurses_fri_day 4
 rhs nurses_fri_night 3
 rhs nurses_sat_day 3
 rhs nurses_sat_night 2
 rhs nurses_sun_day 3
 rhs nurses_sun_night 2
 rhs week_senior 16
 rhs week_nurse 28
 rhs week_aide 26
 rhs week_agency 20
BOUNDS
 UP bnd senior_mon_day 3
 UP bnd senior_mon_night 3
 UP bnd senior_tue_day 3
 UP bnd senior_tue_night 3
 UP bnd senior_wed_day 3
 UP bnd senior_wed_night 3
 UP bnd senior_thu_day 3
 UP bnd senior_thu_night 3
 UP bnd senior_fri_day 3
 UP bnd senior_fri_night 3
 UP bnd senior_sat_day 3
 UP bnd senior_sat_night 3
 UP bnd senior_sun_day 3
 UP bnd senior_sun_night 3
 UP bnd nurse_mon_day 5
 UP bnd nurse_mon_night 5
 UP bnd nurse_tue_day 5
 UP bnd nurse_tue_night 5
 UP bnd nurse_wed_day 5
 UP bnd nurse_wed_night 5
 UP bnd nurse_thu_day 5
 UP bnd nurse_thu_night 5
 UP bnd nurse_fri_day 5
 UP bnd nurse_fri_night 5
 UP bnd nurse_sat_day 5
 UP bnd nurse_sat_night 5
 UP bnd nurse_sun_day 5
 UP bnd nurse_sun_night 5
 UP bnd aide_mon_day 5
 UP bnd aide_mon_night 5
 UP bnd aide_tue_day 5
 UP bnd aide_tue_night 5
 UP bnd aide_wed_day 5
 UP bnd aide_wed_night 5
 UP bnd aide_thu_day 5
 UP bnd aide_thu_night 5
 UP bnd aide_fri_day 5
 UP bnd aide_fri_night 5
 UP bnd aide_sat_day 5
 UP bnd aide_sat_night 5
 UP bnd aide_sun_day 5
 UP bnd aide_sun_night 5
 UP bnd agency_mon_day 3
 UP bnd agency_mon_night 3
 UP bnd agency_tue_day 3
 UP bnd agency_tue_night 3
 UP bnd agency_wed_day 3
 UP bnd agency_wed_night 3
 UP bnd agency_thu_day 3
 UP bnd agency_thu_night 3
 UP bnd agency_fri_day 3
 UP bnd agency_fri_night 3
 UP bnd agency_sat_day 3
 UP bnd agency_sat_night 3
 UP bnd agency_sun_day 3
 UP bnd agency_sun_night 3
ENDATA
