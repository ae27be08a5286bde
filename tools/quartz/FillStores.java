import java.io.InputStream;
import java.io.PrintStream;
import java.nio.charset.StandardCharsets;
import java.sql.Connection;
import java.sql.DriverManager;
import java.sql.SQLException;
import java.sql.Statement;
import java.util.ArrayList;
import java.util.Date;
import java.util.HashSet;
import java.util.List;
import java.util.Properties;
import java.util.Random;
import java.util.Set;
import java.util.TimeZone;
import java.util.TreeMap;
import java.util.TreeSet;
import org.quartz.*;
import org.quartz.DateBuilder.IntervalUnit;
import org.quartz.impl.StdSchedulerFactory;
import org.quartz.impl.calendar.*;
import org.quartz.impl.matchers.GroupMatcher;
import org.quartz.simpl.CascadingClassLoadHelper;
import org.quartz.spi.OperableTrigger;
import org.quartz.utils.ConnectionProvider;
import org.quartz.xml.XMLSchedulingDataProcessor;

/**
 * Lets a real Quartz fill its tables, and prints what it makes of them.
 *
 * <p>usage: FillStores URL SEED TRIGGERS XML
 *
 * <p>Four schedulers share the tables of one PostgreSQL database. {@code fresh} has TRIGGERS generated triggers and all that are made by hand, and never
 * starts. {@code worked} has TRIGGERS / 2 with starts in the past, and works for some seconds, so that they are in the middle of their times. {@code late}
 * has TRIGGERS / 4 of that kind, and one busy thread, so that it handles misfires and doesn't fire them. {@code xml} has what the file XML says. Printed is
 * a line for each trigger: scheduler, group, name, what is special about it, and its next 100 fire times in ms, as Quartz computes them from what it reads back.
 */
public final class FillStores {
    private static final int TIMES = 100;
    private static final long T0 = 1893456000000L; // 2030-01-01T00:00:00Z
    private static final long DAY = 86400000L;
    private static final String[] ZONES = {
        "UTC", "Europe/Berlin", "America/New_York", "Asia/Kolkata", "Australia/Lord_Howe", "America/St_Johns", "Pacific/Auckland", "GMT+03:00", "Asia/Tokyo",
        "Europe/London", "America/Los_Angeles", "Australia/Sydney", "PST"
    };
    private static String url;

    /** A job that ends at once. */
    public static final class Nothing implements Job {
        public void execute(JobExecutionContext context) { }
    }

    /** One that keeps its thread for some seconds. */
    public static final class Busy implements Job {
        public void execute(JobExecutionContext context) {
            try {
                Thread.sleep(5000);
            } catch (InterruptedException error) {
                Thread.currentThread().interrupt();
            }
        }
    }

    /** One that excludes itself and keeps its data. */
    @DisallowConcurrentExecution
    @PersistJobDataAfterExecution
    public static final class Alone implements Job {
        public void execute(JobExecutionContext context) { }
    }

    /** Connections without a pool. */
    public static final class Connections implements ConnectionProvider {
        public Connection getConnection() throws SQLException {
            return DriverManager.getConnection(url);
        }

        public void initialize() { }

        public void shutdown() { }
    }

    private final Random random;
    private final Scheduler scheduler;
    private final boolean inPast;
    private final Class<? extends Job> plain;
    private final List<String> calendars = new ArrayList<>();

    private FillStores(Scheduler scheduler, long seed, boolean inPast, Class<? extends Job> plain) {
        this.random = new Random(seed);
        this.plain = plain;
        this.scheduler = scheduler;
        this.inPast = inPast;
    }

    public static void main(String[] words) {
        try {
            fill(words);
        } catch (Exception | Error error) {
            error.printStackTrace();
            System.exit(1);  // (threads of Quartz would go on)
        }
        System.exit(0);
    }

    private static void fill(String[] words) throws Exception {
        url = words[0];
        long seed = Long.parseLong(words[1]);
        int count = Integer.parseInt(words[2]);
        makeTables();
        Scheduler fresh = schedulerOf("fresh");
        FillStores filler = new FillStores(fresh, seed, false, Nothing.class);
        filler.addCalendars();
        filler.addJobs();
        filler.addGenerated(count);
        new ByHand(fresh).add();
        Scheduler worked = schedulerOf("worked");
        filler = new FillStores(worked, seed + 1, true, Nothing.class);
        filler.addCalendars();
        filler.addJobs();
        filler.addGenerated(count / 2);
        worked.start();
        Thread.sleep(8000);
        worked.shutdown(true);
        // (its one thread is busy, so that most of the misfires that it handled aren't fired when it ends)
        Scheduler late = schedulerOf("late", 1);
        filler = new FillStores(late, seed + 2, true, Busy.class);
        filler.addCalendars();
        filler.addJobs();
        filler.addGenerated(count / 4);
        late.start();
        Thread.sleep(7000);
        late.shutdown(true);
        Scheduler xml = schedulerOf("xml");
        new XMLSchedulingDataProcessor(loader()).processFileAndScheduleJobs(words[3], xml);
        PrintStream out = new PrintStream(System.out, false, StandardCharsets.UTF_8);
        for (Scheduler one : new Scheduler[] {fresh, schedulerOf("worked"), schedulerOf("late"), xml}) {
            print(one, out);
        }
        out.flush();
    }

    private static CascadingClassLoadHelper loader() {
        CascadingClassLoadHelper found = new CascadingClassLoadHelper();
        found.initialize();
        return found;
    }

    private static void makeTables() throws Exception {
        try (InputStream script = Scheduler.class.getResourceAsStream("/org/quartz/impl/jdbcjobstore/tables_postgres.sql");
                Connection connection = DriverManager.getConnection(url); Statement statement = connection.createStatement()) {
            statement.execute(new String(script.readAllBytes(), StandardCharsets.UTF_8).replace("COMMIT;", ""));
        }
    }

    private static Scheduler schedulerOf(String name) throws Exception {
        return schedulerOf(name, 4);
    }

    private static Scheduler schedulerOf(String name, int threads) throws Exception {
        Properties properties = new Properties();
        properties.setProperty("org.quartz.scheduler.instanceName", name);
        properties.setProperty("org.quartz.scheduler.skipUpdateCheck", "true");
        properties.setProperty("org.quartz.threadPool.threadCount", Integer.toString(threads));
        properties.setProperty("org.quartz.threadPool.class", "org.quartz.simpl.SimpleThreadPool");
        properties.setProperty("org.quartz.jobStore.class", "org.quartz.impl.jdbcjobstore.JobStoreTX");
        properties.setProperty("org.quartz.jobStore.driverDelegateClass", "org.quartz.impl.jdbcjobstore.PostgreSQLDelegate");
        properties.setProperty("org.quartz.jobStore.dataSource", "tables");
        properties.setProperty("org.quartz.jobStore.maxMisfiresToHandleAtATime", "1000");
        properties.setProperty("org.quartz.dataSource.tables.connectionProvider.class", Connections.class.getName());
        return new StdSchedulerFactory(properties).getScheduler();
    }

    /** Prints the fire times of a scheduler's triggers, which are read back from the tables, by group and name. */
    private static void print(Scheduler scheduler, PrintStream out) throws Exception {
        TreeMap<String, TriggerKey> keys = new TreeMap<>();
        for (TriggerKey key : scheduler.getTriggerKeys(GroupMatcher.anyTriggerGroup())) {
            keys.put(key.getGroup() + "/" + key.getName(), key);
        }
        for (TriggerKey key : keys.values()) {
            OperableTrigger trigger = (OperableTrigger) scheduler.getTrigger(key);
            org.quartz.Calendar calendar = trigger.getCalendarName() == null ? null : scheduler.getCalendar(trigger.getCalendarName());
            String special = trigger.getDescription() == null ? "-" : trigger.getDescription();
            StringBuilder line = new StringBuilder(String.join("\t", scheduler.getSchedulerName(), key.getGroup(), key.getName(), special));
            for (Date time : TriggerUtils.computeFireTimes(trigger, calendar, TIMES)) {
                line.append('\t').append(time.getTime());
            }
            out.println(line);
        }
    }

    private int below(int bound) {
        return random.nextInt(bound);
    }

    private TimeZone zone() {
        return TimeZone.getTimeZone(ZONES[below(ZONES.length)]);
    }

    private void addJobs() throws Exception {
        JobDataMap data = new JobDataMap();
        data.put("text", "Grüße \uD83D\uDE00 \"quoted\"");
        data.put("whole", 42);
        data.put("long", 1L << 60);
        data.put("flag", true);
        data.put("half", 0.5);
        data.put("list", new ArrayList<>(List.of("a", 1, false)));
        data.put("map", new TreeMap<>(java.util.Map.of("k", "v")));
        data.put("when", new Date(0));
        scheduler.addJob(JobBuilder.newJob(plain).withIdentity("plain").storeDurably().requestRecovery().usingJobData(data).build(), false);
        scheduler.addJob(JobBuilder.newJob(Alone.class).withIdentity("alone", "others").storeDurably().build(), false);
    }

    private void addCalendars() throws Exception {
        for (int number = 0; number < 24; number++) {
            String below = number >= 6 && below(2) == 0 ? calendars.get(below(calendars.size())) : null;
            BaseCalendar made = calendarOf(number % 6, below == null ? null : scheduler.getCalendar(below));
            String name = "calendar " + number;
            scheduler.addCalendar(name, made, false, false);
            calendars.add(name);
        }
    }

    private BaseCalendar calendarOf(int kind, org.quartz.Calendar base) throws Exception {
        TimeZone zone = zone();
        switch (kind) {
            case 0: {
                AnnualCalendar made = new AnnualCalendar(base, zone);
                for (int day = 0; day < 40; day++) {
                    made.setDayExcluded(midnight(zone, 2032, below(12), 1 + below(28)), true);
                }
                return made;
            }
            case 1: {
                HolidayCalendar made = new HolidayCalendar(base, zone);
                for (int day = 0; day < 40; day++) {
                    made.addExcludedDate(midnight(zone, 2026 + below(8), below(12), 1 + below(28)).getTime());
                }
                return made;
            }
            case 2: {
                WeeklyCalendar made = new WeeklyCalendar(base, zone);
                made.setDayExcluded(1 + below(7), true);
                made.setDayExcluded(7, below(2) == 0);
                return made;
            }
            case 3: {
                MonthlyCalendar made = new MonthlyCalendar(base, zone);
                for (int day = 0; day < 8; day++) {
                    made.setDayExcluded(1 + below(31), true);
                }
                return made;
            }
            case 4: {
                int from = below(80000);
                DailyCalendar made = new DailyCalendar(base, ofDay(from), ofDay(from + 1 + below(86399 - from)));
                made.setTimeZone(zone);
                made.setInvertTimeRange(below(2) == 0);
                return made;
            }
            default:
                return new CronCalendar(base, below(2) == 0 ? "* * " + below(24) + "-" + below(24) + " ? * *" : "* 0-" + below(60) + " * ? * MON-WED", zone);
        }
    }

    private static String ofDay(int second) {
        return String.format("%02d:%02d:%02d", second / 3600, second / 60 % 60, second % 60);
    }

    private static java.util.Calendar midnight(TimeZone zone, int year, int month, int day) {
        java.util.Calendar made = java.util.Calendar.getInstance(zone);
        made.clear();
        made.set(year, month, day, 0, 0, 0);
        return made;
    }

    private void addGenerated(int count) throws Exception {
        for (int number = 0; number < count; number++) {
            long begin = inPast ? System.currentTimeMillis() / 1000 * 1000 - DAY * (1 + below(800)) : T0;
            Date start = new Date(begin + (inPast ? 1000L * below(86400) - DAY : 1000L * below(86400 * 400)));
            TriggerBuilder<Trigger> builder = TriggerBuilder.newTrigger().withIdentity("t" + number, "group " + number % 7).startAt(start)
                .withPriority(1 + below(9)).forJob(below(3) == 0 ? new JobKey("alone", "others") : new JobKey("plain"));
            if (below(6) == 0) {
                builder.endAt(new Date(start.getTime() + DAY * (inPast ? 1500 : 60 + below(700)) + 1000L * below(86400)));
            }
            builder.withSchedule(scheduleOf(number % 4));
            String calendar = calendars.get(below(calendars.size()));
            if (below(5) < 2 && includesSome((OperableTrigger) builder.build(), scheduler.getCalendar(calendar))) {
                builder.modifiedByCalendar(calendar);
            }
            try {
                scheduler.scheduleJob(builder.build());
            } catch (SchedulerException error) {
                if (!error.getMessage().contains("will never fire")) {
                    throw error;
                }
                number -= 1;  // (another one in its place)
            }
        }
    }

    /**
     * Whether a calendar includes a good part of a trigger's times, and these don't reach 100 years ahead. Quartz walks for minutes where nearly all are
     * excluded, and never ends where the calendar excludes the last time that it computes of a calendar interval.
     */
    private static boolean includesSome(OperableTrigger trigger, org.quartz.Calendar calendar) {
        TreeSet<Date> times = new TreeSet<>(TriggerUtils.computeFireTimes(trigger, null, 5 * TIMES));
        return times.last().before(new Date(System.currentTimeMillis() + 90 * 365 * DAY))
            && times.stream().filter(time -> calendar.isTimeIncluded(time.getTime())).count() * 4 > times.size();
    }

    private ScheduleBuilder<?> scheduleOf(int kind) {
        int misfire = below(3);
        switch (kind) {
            case 0: {
                SimpleScheduleBuilder made = SimpleScheduleBuilder.simpleSchedule().withIntervalInSeconds(1 + below(3) * 3600 + below(90000));
                made = below(4) == 0 ? made.withRepeatCount(200 + below(100000)) : made.repeatForever();
                return misfire == 0 ? made : misfire == 1 ? made.withMisfireHandlingInstructionNextWithRemainingCount()
                    : made.withMisfireHandlingInstructionNextWithExistingCount();
            }
            case 1: {
                CronScheduleBuilder made = CronScheduleBuilder.cronSchedule(cronText()).inTimeZone(zone());
                return misfire == 0 ? made : misfire == 1 ? made.withMisfireHandlingInstructionDoNothing() : made.withMisfireHandlingInstructionFireAndProceed();
            }
            case 2: {
                IntervalUnit[] units = IntervalUnit.values();
                IntervalUnit unit = units[1 + below(units.length - 1)];
                CalendarIntervalScheduleBuilder made = CalendarIntervalScheduleBuilder.calendarIntervalSchedule().withInterval(1 + below(9), unit)
                    .inTimeZone(zone()).preserveHourOfDayAcrossDaylightSavings(below(2) == 0).skipDayIfHourDoesNotExist(below(2) == 0);
                return misfire == 0 ? made : misfire == 1 ? made.withMisfireHandlingInstructionDoNothing() : made.withMisfireHandlingInstructionFireAndProceed();
            }
            default:
                return dailySchedule(misfire);
        }
    }

    private DailyTimeIntervalScheduleBuilder dailySchedule(int misfire) {
        Set<Integer> days = new HashSet<>();
        while (days.isEmpty() || below(3) > 0) {
            days.add(1 + below(7));
        }
        int from = below(70000);
        int to = from + below(86399 - from);
        DailyTimeIntervalScheduleBuilder made = DailyTimeIntervalScheduleBuilder.dailyTimeIntervalSchedule().onDaysOfTheWeek(days)
            .startingDailyAt(new TimeOfDay(from / 3600, from / 60 % 60, from % 60)).endingDailyAt(new TimeOfDay(to / 3600, to / 60 % 60, to % 60));
        int unit = below(3);
        made = unit == 0 ? made.withIntervalInSeconds(30 + below(20000)) : unit == 1 ? made.withIntervalInMinutes(1 + below(300)) : made.withIntervalInHours(1 + below(6));
        return misfire == 0 ? made : misfire == 1 ? made.withMisfireHandlingInstructionDoNothing() : made.withMisfireHandlingInstructionFireAndProceed();
    }

    private String cronText() {
        String seconds = below(3) == 0 ? below(60) + "" : below(2) == 0 ? "0/" + (1 + below(59)) : "0";
        String minutes = below(3) == 0 ? "*/" + (1 + below(40)) : below(2) == 0 ? below(30) + "-" + (30 + below(30)) : below(60) + "," + below(60);
        String hours = below(3) == 0 ? below(24) + "" : below(2) == 0 ? below(24) + "-" + below(24) : below(12) + "/" + (1 + below(11));
        String[] months = {"*", "*", "1-6", "NOV-FEB", "JAN,APR,JUL,OCT", "2/3", "12"};
        String[] days = {"*", "1", "15", "L", "LW", "L-3", "1W", "15W", "28W", "1-10", "31", "1,10,20", "2/5"};
        String[] weekdays = {"MON-FRI", "SUN", "2", "L", "6L", "3#2", "FRI#5", "SAT,SUN", "6-2", "1/2"};
        String month = months[below(months.length)];
        String year = below(10) == 0 ? " 2030-2034" : "";
        return below(2) == 0 ? String.join(" ", seconds, minutes, hours, days[below(days.length)], month, "?") + year
            : String.join(" ", seconds, minutes, hours, "?", month, weekdays[below(weekdays.length)]) + year;
    }

    /** Triggers each of which shows one thing that Quartz has or does. Its description names the cause of a difference, or is empty where none is allowed. */
    private static final class ByHand {
        private static final TimeZone BERLIN = TimeZone.getTimeZone("Europe/Berlin");
        private static final TimeZone NEW_YORK = TimeZone.getTimeZone("America/New_York");
        private final Scheduler scheduler;
        private int number;

        private ByHand(Scheduler scheduler) {
            this.scheduler = scheduler;
        }

        private void put(String cause, Date start, Date end, ScheduleBuilder<?> schedule) throws Exception {
            TriggerBuilder<Trigger> made = TriggerBuilder.newTrigger().withIdentity("h" + number++, "by hand").forJob("plain").startAt(start).endAt(end).withDescription(cause);
            scheduler.scheduleJob(made.withSchedule(schedule).build());
        }

        private static Date at(TimeZone zone, int year, int month, int day, int hour, int minute, int second) {
            java.util.Calendar made = midnight(zone, year, month - 1, day);
            made.set(java.util.Calendar.HOUR_OF_DAY, hour);
            made.set(java.util.Calendar.MINUTE, minute);
            made.set(java.util.Calendar.SECOND, second);
            return made.getTime();
        }

        private void add() throws Exception {
            crons();
            intervals();
            dailies();
            simples();
            states();
        }

        private void crons() throws Exception {
            Date start = at(BERLIN, 2030, 1, 1, 0, 0, 0);
            for (String text : new String[] {"0 30 2 * * ?", "0 0 * * * ?", "0 15 1-3 * * ?"}) {
                put("fold", at(BERLIN, 2030, 10, 20, 0, 0, 0), null, CronScheduleBuilder.cronSchedule(text).inTimeZone(BERLIN));
                put("fold", at(NEW_YORK, 2030, 10, 30, 0, 0, 0), null, CronScheduleBuilder.cronSchedule(text).inTimeZone(NEW_YORK));
            }
            for (String text : new String[] {"0 30 2 * * ?", "0 0/20 * * * ?", "0 0 3 * * ?"}) {
                put(null, at(BERLIN, 2030, 3, 30, 0, 0, 0), null, CronScheduleBuilder.cronSchedule(text).inTimeZone(BERLIN));
            }
            for (String text : new String[] {"0 0 12 29W * ?", "0 0 12 30W * ?", "0 0 12 31W * ?"}) {
                put("nearest", start, null, CronScheduleBuilder.cronSchedule(text).inTimeZone(BERLIN));
            }
            String[] written = {"0 0 12 ? * MON/2", "0 0 12 ? * MON-FRI/2", "0 0 12 1 JAN/3 ?", "0 0 12 1 JAN-DEC/3 ?", "0 0/0 12 * * ?", "0 */0 12 * * ?", "0 0 12 ? * MON,WED/2"};
            for (String text : written) {
                put(null, start, null, CronScheduleBuilder.cronSchedule(text).inTimeZone(TimeZone.getTimeZone("UTC")));
            }
            for (String text : new String[] {"0 0 12 15W,20 * ?", "0 0 12 ? * 2#1,5", "0 0 12 L-3W * ?", "0 0 12 1 JANUARY ?", "0 *5 12 * * ?", "0 1,,2 12 * * ?"}) {
                put("left out", start, null, CronScheduleBuilder.cronSchedule(text).inTimeZone(BERLIN));
            }
            put(null, start, at(BERLIN, 2030, 1, 8, 12, 0, 0), CronScheduleBuilder.cronSchedule("0 0 12 * * ?").inTimeZone(BERLIN));
            put(null, start, null, CronScheduleBuilder.cronSchedule("0 0 12 29 2 ?").inTimeZone(BERLIN));
        }

        private void intervals() throws Exception {
            for (boolean preserves : new boolean[] {false, true}) {
                for (boolean skips : new boolean[] {false, true}) {
                    for (IntervalUnit unit : new IntervalUnit[] {IntervalUnit.HOUR, IntervalUnit.DAY, IntervalUnit.WEEK, IntervalUnit.MONTH, IntervalUnit.YEAR}) {
                        CalendarIntervalScheduleBuilder made = CalendarIntervalScheduleBuilder.calendarIntervalSchedule().withInterval(5, unit)
                            .inTimeZone(NEW_YORK).preserveHourOfDayAcrossDaylightSavings(preserves).skipDayIfHourDoesNotExist(skips);
                        put(null, at(NEW_YORK, 2030, 3, 1, 9, 30, 17), null, made);
                        if (unit == IntervalUnit.DAY || unit == IntervalUnit.WEEK) {
                            // (its local time is left out on 10 March 2030)
                            put("gap", at(NEW_YORK, 2030, 2, 3, 2, 30, 0), null, made.withInterval(unit == IntervalUnit.DAY ? 1 : 5, unit));
                        }
                        if (unit == IntervalUnit.MONTH) {
                            put("month", at(NEW_YORK, 2030, 1, 31, 10, 0, 0), null, made.withInterval(1, unit));
                        }
                    }
                }
            }
            Date start = at(BERLIN, 2030, 6, 1, 8, 0, 0);
            put(null, start, at(BERLIN, 2030, 6, 11, 8, 0, 0), CalendarIntervalScheduleBuilder.calendarIntervalSchedule().withIntervalInDays(1).inTimeZone(BERLIN));
            put(null, start, start, CalendarIntervalScheduleBuilder.calendarIntervalSchedule().withIntervalInDays(1).inTimeZone(BERLIN));
        }

        private void dailies() throws Exception {
            DailyTimeIntervalScheduleBuilder hourly = DailyTimeIntervalScheduleBuilder.dailyTimeIntervalSchedule().withIntervalInHours(1)
                .startingDailyAt(new TimeOfDay(8, 0, 0)).endingDailyAt(new TimeOfDay(17, 0, 0));
            put(null, at(BERLIN, 2030, 1, 1, 0, 0, 0), null, hourly);
            put("daily end", at(BERLIN, 2030, 1, 1, 0, 0, 0), at(BERLIN, 2030, 1, 3, 12, 0, 0), hourly);
            put("daily end", at(BERLIN, 2030, 1, 1, 0, 0, 0), at(BERLIN, 2030, 1, 3, 12, 30, 0), hourly);
            put("millisecond", new Date(at(BERLIN, 2030, 1, 1, 8, 0, 0).getTime() + 500), null, hourly);
            DailyTimeIntervalScheduleBuilder night = DailyTimeIntervalScheduleBuilder.dailyTimeIntervalSchedule().withIntervalInMinutes(30)
                .startingDailyAt(new TimeOfDay(1, 0, 0)).endingDailyAt(new TimeOfDay(4, 0, 0));
            put("daily clock", at(BERLIN, 2030, 3, 29, 0, 0, 0), null, night);
            put("daily clock", at(BERLIN, 2030, 10, 25, 0, 0, 0), null, night);
            DailyTimeIntervalScheduleBuilder odd = DailyTimeIntervalScheduleBuilder.dailyTimeIntervalSchedule().withIntervalInMinutes(271)
                .startingDailyAt(new TimeOfDay(0, 36, 26)).endingDailyAt(new TimeOfDay(5, 10, 48));
            put("daily clock", at(BERLIN, 2030, 3, 1, 0, 0, 0), null, odd);
            put("daily clock", at(BERLIN, 2030, 10, 1, 0, 0, 0), null, odd);
            put("left out", at(BERLIN, 2030, 1, 1, 0, 0, 0), null, hourly.withRepeatCount(7));
        }

        private void simples() throws Exception {
            Date start = at(BERLIN, 2030, 1, 1, 0, 0, 0);
            SimpleScheduleBuilder once = SimpleScheduleBuilder.simpleSchedule();
            put(null, start, null, once);
            put(null, start, start, once);
            put(null, start, null, SimpleScheduleBuilder.simpleSchedule().withIntervalInMilliseconds(1).withRepeatCount(5));
            put(null, start, at(BERLIN, 2030, 1, 2, 0, 0, 0), SimpleScheduleBuilder.repeatHourlyForever());
            put(null, new Date(start.getTime() + 123), null, SimpleScheduleBuilder.simpleSchedule().withIntervalInMilliseconds(1234567).repeatForever());
            DailyCalendar noon = new DailyCalendar("12:00:00", "13:00:00");
            noon.setTimeZone(BERLIN);
            scheduler.addCalendar("noon", noon, false, false);
            scheduler.scheduleJob(TriggerBuilder.newTrigger().withIdentity("hourly", "by hand").forJob("plain").startAt(start).modifiedByCalendar("noon")
                .withSchedule(SimpleScheduleBuilder.repeatHourlyForever()).build());
        }

        private void states() throws Exception {
            Date start = at(BERLIN, 2030, 1, 1, 0, 0, 0);
            TriggerBuilder<Trigger> made = TriggerBuilder.newTrigger().withIdentity("paused", "states").forJob("plain").startAt(start).usingJobData("own", "data");
            scheduler.scheduleJob(made.withSchedule(SimpleScheduleBuilder.repeatHourlyForever()).build());
            scheduler.pauseTrigger(new TriggerKey("paused", "states"));
            scheduler.pauseTriggers(GroupMatcher.triggerGroupEquals("paused group"));
        }
    }
}
