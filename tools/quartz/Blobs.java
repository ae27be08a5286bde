import java.io.ByteArrayOutputStream;
import java.io.ObjectOutputStream;
import java.io.Serializable;
import java.util.ArrayList;
import java.util.Base64;
import java.util.Date;
import java.util.List;
import java.util.Map;
import java.util.TimeZone;
import java.util.TreeMap;
import java.util.TreeSet;
import org.quartz.JobDataMap;
import org.quartz.impl.calendar.*;

/** Prints serialized objects, as Quartz puts them into its tables: a name and base64 a line. They are clients/python/tests/quartz_blobs.txt. */
public final class Blobs {
    private static final TimeZone BERLIN = TimeZone.getTimeZone("Europe/Berlin");

    /** An object that only its class understands. */
    private static final class Mine implements Serializable {
        private static final long serialVersionUID = 1;
        private final int number = 1;
    }

    private static void put(String name, Object object) throws Exception {
        ByteArrayOutputStream bytes = new ByteArrayOutputStream();
        try (ObjectOutputStream out = new ObjectOutputStream(bytes)) {
            out.writeObject(object);
        }
        System.out.println(name + " " + Base64.getEncoder().encodeToString(bytes.toByteArray()));
    }

    private static java.util.Calendar day(int year, int month, int day) {
        java.util.Calendar made = java.util.Calendar.getInstance(BERLIN);
        made.clear();
        made.set(year, month - 1, day);
        return made;
    }

    public static void main(String[] words) throws Exception {
        JobDataMap data = new JobDataMap(Map.of("to", "Grüße \uD83D\uDE00", "n", 42, "c", 'x', "when", new Date(0), "nan", Double.NaN, "mine", new Mine()));
        data.put("list", new ArrayList<>(List.of("a", 1L, false)));
        data.put("set", new TreeSet<>(List.of("b", "a")));
        data.put("map", new TreeMap<>(Map.of("k", (short) 3)));
        put("data", data);
        AnnualCalendar annual = new AnnualCalendar(null, BERLIN);
        annual.setDayExcluded(day(2030, 12, 25), true);
        annual.setDayExcluded(day(2030, 1, 1), true);
        put("annual", annual);
        HolidayCalendar holiday = new HolidayCalendar(annual, BERLIN);
        holiday.addExcludedDate(day(2031, 5, 1).getTime());
        put("holiday", holiday);
        put("weekly", new WeeklyCalendar());
        MonthlyCalendar monthly = new MonthlyCalendar(BERLIN);
        monthly.setDayExcluded(31, true);
        monthly.setDayExcluded(1, true);
        put("monthly", monthly);
        DailyCalendar daily = new DailyCalendar("09:30:00:250", "17:00");
        daily.setTimeZone(BERLIN);
        put("daily", daily);
        put("cron", new CronCalendar(null, "0 0 12 ? * MON-FRI/2", TimeZone.getTimeZone("GMT+05:30")));
        put("date", new Date(5));
        List<Object> bomb = new ArrayList<>(List.of("x", "x"));
        for (int level = 0; level < 25; level++) {
            bomb = new ArrayList<>(List.of(bomb, bomb));
        }
        JobDataMap many = new JobDataMap(Map.of("bomb", bomb, "ok", 1));
        put("bomb", many);
        List<Object> deep = new ArrayList<>();
        for (int level = 0; level < 200; level++) {
            deep = new ArrayList<>(List.of(deep));
        }
        put("deep", deep);
    }
}
